// A frame of a field bus: start byte, address, length, data, and a CRC-16/CCITT of the bytes between. The program makes
// a frame, damages one bit of a copy, and checks both.

struct frame {
  char start;
  char address;
  char length;
  char data[16];
  unsigned crc;
};

unsigned crc_step(unsigned crc, char byte) {
  crc ^= byte << 8;
  for (int k = 0; k < 8; k++) {
    if (crc & 0x8000)
      crc = (crc << 1 ^ 0x1021) & 0xffff;
    else
      crc = crc << 1 & 0xffff;
  }
  return crc;
}

unsigned crc_of(struct frame *f) {
  unsigned crc = 0xffff;
  crc = crc_step(crc, f->address);
  crc = crc_step(crc, f->length);
  for (int i = 0; i < f->length; i++)
    crc = crc_step(crc, f->data[i]);
  return crc;
}

void fill(struct frame *f, int address, const char *text) {
  int n = 0;
  f->start = 0x7e;
  f->address = address;
  while (text[n] && n < 16) {
    f->data[n] = text[n];
    n++;
  }
  f->length = n;
  f->crc = crc_of(f);
}

int is_good(struct frame *f) {
  return f->start == 0x7e && f->length <= 16 && f->crc == crc_of(f);
}

void put_hex(unsigned n) {
  for (int shift = 12; shift >= 0; shift -= 4)
    putchar("0123456789ABCDEF"[n >> shift & 15]);
}

int main(int address, int bit) {
  struct frame sent, got;
  fill(&sent, address, "read valve 4");
  got = sent;
  if (bit >= 0 && bit < 128)
    got.data[bit / 8] ^= 1 << bit % 8;
  put_hex(sent.crc);
  putchar(' ');
  put_hex(crc_of(&got));
  putchar(is_good(&sent) ? '+' : '-');
  putchar(is_good(&got) ? '+' : '-');
  putchar('\n');
  return is_good(&sent) * 2 + is_good(&got);
}
