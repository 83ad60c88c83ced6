// Fibonacci's numbers: the count of calls grows with the result, but the stack only with n.

unsigned fibonacci(unsigned n) {
  if (n < 2)
    return n;
  return fibonacci(n - 1) + fibonacci(n - 2);
}

int main(unsigned n) { return (int)(fibonacci(n) % 256); }
