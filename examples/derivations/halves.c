// The binary digits of n: each call takes the last digit off, so there are as many calls as n has digits.

void put(unsigned n) {
  if (n >= 2)
    put(n / 2);
  putchar('0' + n % 2);
}

int main(unsigned n) {
  put(n);
  putchar('\n');
  return 0;
}
