// Base64 of the input, in lines of at most 24 characters.

static const char digits[] = "ABCDEFGHIJKLMNOPQRSTUVWXYZabcdefghijklmnopqrstuvwxyz0123456789+/";
static int column;

void put(int c) {
  if (column == 24) {
    putchar('\n');
    column = 0;
  }
  putchar(c);
  column++;
}

void put_group(unsigned bits, int bytes) {
  for (int k = 0; k < 4; k++)
    put(k <= bytes ? digits[bits >> (18 - 6 * k) & 63] : '=');
}

int main(void) {
  unsigned bits = 0;
  int bytes = 0, c;
  while ((c = getchar()) != -1) {
    bits |= c << (16 - 8 * bytes);
    if (++bytes == 3) {
      put_group(bits, 3);
      bits = 0;
      bytes = 0;
    }
  }
  if (bytes)
    put_group(bits, bytes);
  putchar('\n');
  return column;
}
