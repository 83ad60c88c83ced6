// Pseudo-random numbers three ways: a shift register with feedback, xorshift, and a linear congruence; and how even the
// third is over eight bins.

unsigned lfsr(unsigned state) {
  unsigned bit = state & 1;
  state >>= 1;
  if (bit)
    state ^= 0x240;
  return state;
}

unsigned xorshift(unsigned *state) {
  unsigned x = *state;
  x ^= x << 13;
  x ^= x >> 17;
  x ^= x << 5;
  return *state = x;
}

unsigned congruence(unsigned *state) {
  *state = *state * 1664525 + 1013904223;
  return *state >> 16;
}

void put_number(unsigned n) {
  char digits[10];
  int count = 0;
  do
    digits[count++] = '0' + n % 10;
  while (n /= 10);
  while (count)
    putchar(digits[--count]);
}

int main(unsigned seed) {
  unsigned state = 0x2a5, turns = 0, x = seed, y = seed, bins[8] = {0}, least = 1000;
  do {
    state = lfsr(state);
    turns++;
  } while (state != 0x2a5);
  put_number(turns);
  putchar('\n');
  for (int i = 0; i < 4; i++) {
    put_number(xorshift(&x));
    putchar(i < 3 ? ' ' : '\n');
  }
  for (int i = 0; i < 800; i++)
    bins[congruence(&y) % 8]++;
  for (int i = 0; i < 8; i++) {
    put_number(bins[i]);
    putchar(i < 7 ? ' ' : '\n');
    if (bins[i] < least)
      least = bins[i];
  }
  return least;
}
