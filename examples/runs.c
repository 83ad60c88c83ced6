// Packs runs of equal bytes: a count and a byte. The packed bytes are unpacked again, and both are compared.

char input[64], packed[128], again[64];

int read(char *into, int room) {
  int n = 0, c;
  while (n < room && (c = getchar()) != -1)
    into[n++] = c;
  return n;
}

int pack(char *to, const char *from, int n) {
  int out = 0;
  for (int i = 0; i < n;) {
    int run = 1;
    while (i + run < n && run < 9 && from[i + run] == from[i])
      run++;
    to[out++] = run;
    to[out++] = from[i];
    i += run;
  }
  return out;
}

int unpack(char *to, const char *from, int n) {
  int out = 0;
  for (int i = 0; i < n; i += 2)
    for (int k = from[i]; k; k--)
      to[out++] = from[i + 1];
  return out;
}

int main(void) {
  int n = read(input, sizeof input), m = pack(packed, input, n), same = unpack(again, packed, m) == n;
  for (int i = 0; i < m; i++)
    putchar(i % 2 ? packed[i] : '0' + packed[i]);
  putchar('\n');
  for (int i = 0; i < n; i++)
    same &= input[i] == again[i];
  return same ? m : 255;
}
