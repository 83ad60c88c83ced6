// Two functions that call each other in turn: whether a number is even.

int odd(unsigned n);

int even(unsigned n) {
  if (n == 0)
    return 1;
  return odd(n - 1);
}

int odd(unsigned n) {
  if (n == 0)
    return 0;
  return even(n - 1);
}

int main(unsigned n) { return even(n); }
