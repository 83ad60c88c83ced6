// A loop that calls a recursive function with a number that is never more than n.

unsigned ones(unsigned n) {
  if (n == 0)
    return 0;
  return ones(n / 2) + n % 2;
}

unsigned ones_below(unsigned n) {
  unsigned sum = 0;
  for (unsigned i = 0; i < n; i++)
    sum += ones(i);
  return sum;
}

int main(unsigned n) { return (int)ones_below(n); }
