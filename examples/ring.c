// A ring buffer between a producer that is faster and a consumer that is slower: what doesn't fit is dropped and counted.

struct ring {
  char bytes[8];
  unsigned first, count, dropped;
};

int is_full(const struct ring *r) { return r->count == sizeof r->bytes; }

void put(struct ring *r, char byte) {
  if (is_full(r)) {
    r->dropped++;
    return;
  }
  r->bytes[(r->first + r->count) % sizeof r->bytes] = byte;
  r->count++;
}

int take(struct ring *r) {
  int byte;
  if (r->count == 0)
    return -1;
  byte = r->bytes[r->first];
  r->first = (r->first + 1) % sizeof r->bytes;
  r->count--;
  return byte;
}

struct ring line;

int main(void) {
  int c, turn = 0;
  while ((c = getchar()) != -1) {
    put(&line, c);
    if (++turn % 3 == 0 && (c = take(&line)) != -1)
      putchar(c);
  }
  putchar('|');
  while ((c = take(&line)) != -1)
    putchar(c);
  putchar('\n');
  return line.dropped;
}
