// How deep the recursion goes is read from the input, but it is less than 8: that is what the result of `level` says.

unsigned level(void) {
  unsigned c = getchar();
  return c % 8;
}

void indent(unsigned n) {
  if (n == 0)
    return;
  putchar('>');
  indent(n - 1);
  putchar('<');
}

int main(void) {
  indent(level());
  putchar('\n');
  return 0;
}
