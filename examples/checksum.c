// Three checksums of the input: the sum of RFC 1071, Fletcher-16 and Adler-32.

struct sums {
  unsigned words;
  unsigned fletcher_low, fletcher_high;
  unsigned adler_low, adler_high;
  int is_odd;
};

void begin(struct sums *s) {
  s->words = 0;
  s->fletcher_low = 0;
  s->fletcher_high = 0;
  s->adler_low = 1;
  s->adler_high = 0;
  s->is_odd = 0;
}

void take(struct sums *s, unsigned byte) {
  s->words += s->is_odd ? byte : byte << 8;
  s->words = (s->words & 0xffff) + (s->words >> 16);
  s->is_odd = !s->is_odd;
  s->fletcher_low = (s->fletcher_low + byte) % 255;
  s->fletcher_high = (s->fletcher_high + s->fletcher_low) % 255;
  s->adler_low = (s->adler_low + byte) % 65521;
  s->adler_high = (s->adler_high + s->adler_low) % 65521;
}

void put_hex(unsigned n, int digits) {
  while (digits > 0) {
    digits--;
    putchar("0123456789abcdef"[n >> (4 * digits) & 15]);
  }
  putchar('\n');
}

int main(void) {
  struct sums s;
  int c;
  begin(&s);
  while ((c = getchar()) != -1)
    take(&s, c);
  put_hex(~s.words & 0xffff, 4);
  put_hex(s.fletcher_high << 8 | s.fletcher_low, 4);
  put_hex(s.adler_high << 16 | s.adler_low, 8);
  return (int)(s.words & 0xff);
}
