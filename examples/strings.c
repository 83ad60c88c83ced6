// Texts: length, comparison, search, copying with a limit, reversal of words, and capital letters.

int length(const char *s) {
  const char *p = s;
  while (*p)
    p++;
  return p - s;
}

int compare(const char *a, const char *b) {
  for (; *a && *a == *b; a++, b++)
    ;
  return *a - *b;
}

char *find(char *in, const char *what) {
  int n = length(what);
  for (; *in; in++) {
    int i = 0;
    while (i < n && in[i] == what[i])
      i++;
    if (i == n)
      return in;
  }
  return 0;
}

int copy(char *to, const char *from, int room) {
  int n = 0;
  for (; n < room - 1 && from[n]; n++)
    to[n] = from[n];
  to[n] = '\0';
  return n;
}

void turn(char *first, char *behind) {
  while (first < behind) {
    char c = *--behind;
    *behind = *first;
    *first++ = c;
  }
}

void turn_words(char *s) {
  char *word = s;
  turn(s, s + length(s));
  for (; *s; s++)
    if (*s == ' ') {
      turn(word, s);
      word = s + 1;
    }
  turn(word, s);
}

void put(const char *s) {
  while (*s)
    putchar(*s++);
  putchar('\n');
}

char *names[] = {"pump", "valve", "pumps", "", "lamp"};

int main(void) {
  char line[40];
  char *place;
  char *least = names[0];
  copy(line, "the stack is as deep as the bound", sizeof line);
  turn_words(line);
  put(line);
  place = find(line, "deep");
  for (char *p = place; p && *p && *p != ' '; p++)
    *p -= 'a' - 'A';
  put(line);
  for (int i = 1; i < 5; i++)
    if (length(names[i]) && compare(names[i], least) < 0)
      least = names[i];
  put(least);
  line[copy(line, "cut off here", 8)] = '!';
  line[8] = '\0';
  put(line);
  return (place - line) * 10 + (find(line, "none") == 0) + (compare("a", "b") < 0);
}
