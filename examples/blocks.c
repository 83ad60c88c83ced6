// A pool of blocks of memory with a list of free ones in it: blocks are taken, given back in another order, and taken again.

struct block {
  struct block *next;
  char bytes[12];
};

struct block pool[4];
struct block *free_blocks;
int taken;

void begin(void) {
  struct block *last = 0;
  for (struct block *b = pool; b < pool + 4; b++) {
    b->next = last;
    last = b;
  }
  free_blocks = last;
}

char *take(void) {
  struct block *b = free_blocks;
  if (!b)
    return 0;
  free_blocks = b->next;
  taken++;
  return b->bytes;
}

int give_back(char *bytes) {
  for (int i = 0; i < 4; i++)
    if (bytes == pool[i].bytes) {
      pool[i].next = free_blocks;
      free_blocks = &pool[i];
      taken--;
      return i;
    }
  return -1;
}

int main(void) {
  char *held[5];
  begin();
  for (int i = 0; i < 5; i++) {
    held[i] = take();
    if (held[i])
      for (int k = 0; k < 12; k++)
        held[i][k] = 'a' + i;
    putchar(held[i] ? 'y' : 'n');
  }
  putchar('\n');
  for (int i = 1; i < 4; i += 2)
    putchar('0' + give_back(held[i]));
  putchar('\n');
  for (int i = 0; i < 2; i++) {
    char *p = take();
    putchar(p == held[3 - 2 * i] ? 'y' : 'n');
    putchar(p[11]);
  }
  putchar('\n');
  for (int i = 0; i < 4; i++)
    for (int k = 0; k < 12; k += 11)
      putchar(pool[i].bytes[k]);
  putchar('\n');
  return taken * 10 + (take() == 0);
}
