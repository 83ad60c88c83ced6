// The sum of the numbers up to n: each call makes one more, with a number that is less by one.

unsigned sum(unsigned n) {
  if (n == 0)
    return 0;
  return n + sum(n - 1);
}

int main(unsigned n) { return (int)(sum(n) % 256); }
