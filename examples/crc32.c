// CRC-32 (IEEE 802.3) of the input, by a table of 256 entries that is made first.

static unsigned table[256];

void make_table(void) {
  for (int i = 0; i < 256; i++) {
    unsigned r = i;
    for (int k = 0; k < 8; k++)
      r = r & 1 ? r >> 1 ^ 0xedb88320 : r >> 1;
    table[i] = r;
  }
}

unsigned update(unsigned crc, char byte) {
  return crc >> 8 ^ table[(crc ^ byte) & 255];
}

void put_hex(unsigned n) {
  for (int shift = 28; shift >= 0; shift -= 4)
    putchar("0123456789abcdef"[n >> shift & 15]);
  putchar('\n');
}

int main(void) {
  unsigned crc = 0xffffffff;
  int c;
  make_table();
  while ((c = getchar()) != -1)
    crc = update(crc, c);
  put_hex(~crc);
  return 0;
}
