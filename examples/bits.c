// Bits of a number: how many, reversed, the highest, parity, Gray code, rotation, and single bits of a port.

unsigned count(unsigned n) {
  unsigned k = 0;
  for (; n; n &= n - 1)
    k++;
  return k;
}

unsigned reverse(unsigned n) {
  n = (n & 0x55555555) << 1 | (n >> 1 & 0x55555555);
  n = (n & 0x33333333) << 2 | (n >> 2 & 0x33333333);
  n = (n & 0x0f0f0f0f) << 4 | (n >> 4 & 0x0f0f0f0f);
  n = (n & 0x00ff00ff) << 8 | (n >> 8 & 0x00ff00ff);
  return n << 16 | n >> 16;
}

int highest(unsigned n) {
  int k = -1;
  while (n) {
    n >>= 1;
    k++;
  }
  return k;
}

unsigned rotate(unsigned n, unsigned by) {
  by &= 31;
  return by ? n << by | n >> (32 - by) : n;
}

unsigned gray(unsigned n) { return n ^ n >> 1; }

unsigned ungray(unsigned g) {
  for (unsigned shift = 1; shift < 32; shift *= 2)
    g ^= g >> shift;
  return g;
}

void put_hex(unsigned n) {
  for (int shift = 28; shift >= 0; shift -= 4)
    putchar("0123456789abcdef"[n >> shift & 15]);
  putchar('\n');
}

int main(unsigned n, int by) {
  char port = 0;
  port |= 1 << 3;
  port |= 1 << 7;
  port &= ~(1 << 3);
  port ^= 0xff;
  put_hex(reverse(n));
  put_hex(rotate(n, by));
  put_hex(gray(n));
  put_hex(ungray(gray(n)));
  put_hex(port);
  put_hex((unsigned)(-by >> 1));
  return (int)(count(n) + 100 * (count(n) & 1)) + highest(n);
}
