// A number in base three: the digits in front come by a call for a third of it, behind which the last one is put. The
// numbers of one digit go past the call.

void put(unsigned n) {
  switch (n) {
  default:
    put(n / 3);
  case 0:
  case 1:
  case 2:
    putchar('0' + (int)(n % 3));
  }
}

int main(unsigned n) {
  put(n);
  putchar('\n');
  return 0;
}
