// Reads numbers, decimal with a sign or hexadecimal after 0x, adds them, and tells the first thing that is none.

struct reader {
  int next;
  int line;
  int is_bad;
};

void advance(struct reader *r) {
  if (r->next == '\n')
    r->line++;
  r->next = getchar();
}

void skip_blanks(struct reader *r) {
  while (r->next == ' ' || r->next == '\t' || r->next == '\n')
    advance(r);
}

int digit_of(int c) {
  if (c >= '0' && c <= '9')
    return c - '0';
  if (c >= 'a' && c <= 'f')
    return c - 'a' + 10;
  if (c >= 'A' && c <= 'F')
    return c - 'A' + 10;
  return 16;
}

int read_digits(struct reader *r, int base) {
  int n = 0, d = digit_of(r->next);
  if (d >= base)
    r->is_bad = 1;
  while (d < base) {
    n = n * base + d;
    advance(r);
    d = digit_of(r->next);
  }
  return n;
}

int read_number(struct reader *r) {
  int sign = 1;
  if (r->next == '-') {
    sign = -1;
    advance(r);
  }
  if (r->next != '0')
    return sign * read_digits(r, 10);
  advance(r);
  if (r->next == 'x') {
    advance(r);
    return sign * read_digits(r, 16);
  }
  return digit_of(r->next) < 10 ? sign * read_digits(r, 10) : 0;
}

void put_number(int n) {
  char digits[10];
  int count = 0;
  unsigned rest = n < 0 ? -(unsigned)n : (unsigned)n;
  if (n < 0)
    putchar('-');
  do
    digits[count++] = '0' + rest % 10;
  while (rest /= 10);
  while (count--)
    putchar(digits[count]);
}

int main(void) {
  struct reader r = {0, 1, 0};
  int sum = 0;
  advance(&r);
  for (;;) {
    skip_blanks(&r);
    if (r.next == -1)
      break;
    sum += read_number(&r);
    if (r.is_bad || digit_of(r.next) < 16) {
      putchar('?');
      put_number(r.line);
      putchar('\n');
      return 1;
    }
    put_number(sum);
    putchar('\n');
  }
  return 0;
}
