// Binary search in a table, by recursion: each call has at most half as many entries as the one before.

struct entry {
  int key;
  char value;
};

struct entry table[7] = {{2, 'a'}, {5, 'b'}, {9, 'c'}, {14, 'd'}, {20, 'e'}, {27, 'f'}, {35, 'g'}};

struct entry *find(struct entry *first, unsigned count, int key) {
  unsigned half = count / 2;
  if (count == 0)
    return 0;
  if (first[half].key == key)
    return first + half;
  if (first[half].key < key)
    return find(first + half + 1, count - half - 1, key);
  return find(first, half, key);
}

int main(int key) {
  struct entry *e = find(table, 7, key);
  if (!e)
    return 1;
  putchar(e->value);
  return 0;
}
