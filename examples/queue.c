// Events in the order of their times: a heap of structs, from which the earliest is always taken.

struct event {
  unsigned time;
  int device;
  char *text;
};

struct event heap[8];
int count;

int is_before(const struct event *a, const struct event *b) {
  return a->time < b->time || a->time == b->time && a->device < b->device;
}

void swap(struct event *a, struct event *b) {
  struct event x = *a;
  *a = *b;
  *b = x;
}

int add(unsigned time, int device, char *text) {
  int at = count;
  if (count == 8)
    return 0;
  heap[at].time = time;
  heap[at].device = device;
  heap[at].text = text;
  count++;
  while (at > 0 && is_before(&heap[at], &heap[(at - 1) / 2])) {
    swap(&heap[at], &heap[(at - 1) / 2]);
    at = (at - 1) / 2;
  }
  return 1;
}

int take(struct event *into) {
  int at = 0, child;
  if (count == 0)
    return 0;
  *into = heap[0];
  heap[0] = heap[--count];
  while ((child = 2 * at + 1) < count) {
    if (child + 1 < count && is_before(&heap[child + 1], &heap[child]))
      child++;
    if (!is_before(&heap[child], &heap[at]))
      break;
    swap(&heap[at], &heap[child]);
    at = child;
  }
  return 1;
}

void put_number(unsigned n) {
  char digits[10];
  int k = 0;
  do
    digits[k++] = '0' + n % 10;
  while (n /= 10);
  while (k)
    putchar(digits[--k]);
}

int main(void) {
  struct event e;
  int turns = 0;
  add(30, 2, "pump off");
  add(10, 1, "valve open");
  add(20, 3, "lamp on");
  while (take(&e)) {
    put_number(e.time);
    putchar(' ');
    put_number(e.device);
    putchar(' ');
    for (char *p = e.text; *p; p++)
      putchar(*p);
    putchar('\n');
    turns++;
    if (e.device == 3 && e.time < 100)
      add(e.time + 35, 3, "lamp on");
    if (e.device == 1)
      add(e.time + 20, 1, turns < 6 ? "valve closed" : "valve open");
    if (turns == 12)
      break;
  }
  return count;
}
