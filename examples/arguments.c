// All eight arguments of main: ints and unsigned numbers that are told apart by order and division.

void put_number(int n) {
  char digits[10];
  int count = 0;
  unsigned rest = n < 0 ? 0u - n : (unsigned)n;
  if (n < 0)
    putchar('-');
  do
    digits[count++] = '0' + rest % 10;
  while (rest /= 10);
  while (count)
    putchar(digits[--count]);
  putchar(' ');
}

int main(int a, unsigned b, int c, unsigned d, int e, unsigned f, int g, unsigned h) {
  put_number(a / 7);
  put_number(b / 7);
  put_number(c % 7);
  put_number(d % 7);
  put_number(e >> 4);
  put_number(f >> 4);
  put_number(g < a);
  put_number(h < b);
  putchar('\n');
  return a + b + c + d + e + f + g + h;
}
