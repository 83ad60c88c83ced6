// A list that is kept in order, of nodes from a pool: pointers to structs, and pointers to pointers.

struct node {
  struct node *next;
  int key;
};

struct node pool[10];
struct node *spare;

void make_pool(void) {
  for (int i = 0; i < 10; i++) {
    pool[i].next = spare;
    spare = &pool[i];
  }
}

int insert(struct node **list, int key) {
  struct node *n = spare;
  if (!n)
    return 0;
  spare = n->next;
  while (*list && (*list)->key < key)
    list = &(*list)->next;
  n->key = key;
  n->next = *list;
  *list = n;
  return 1;
}

int delete(struct node **list, int key) {
  struct node *n;
  while (*list && (*list)->key != key)
    list = &(*list)->next;
  n = *list;
  if (!n)
    return 0;
  *list = n->next;
  n->next = spare;
  spare = n;
  return 1;
}

struct node *reverse(struct node *list) {
  struct node *done = 0;
  while (list) {
    struct node *rest = list->next;
    list->next = done;
    done = list;
    list = rest;
  }
  return done;
}

void put(const struct node *list) {
  for (; list; list = list->next) {
    putchar('0' + list->key / 10);
    putchar('0' + list->key % 10);
    putchar(list->next ? ' ' : '\n');
  }
}

int main(void) {
  struct node *list = 0;
  int failed = 0, key = 7;
  make_pool();
  for (int i = 0; i < 12; i++) {
    failed += !insert(&list, key);
    key = key * 31 % 97;
  }
  put(list);
  failed += 10 * !delete(&list, 98);
  failed += 10 * delete(&list, 7);
  insert(&list, 50);
  put(list);
  list = reverse(list);
  put(list);
  return failed;
}
