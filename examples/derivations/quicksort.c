// Quicksort of a range: how deep it goes depends on the numbers, but it is never more than the count of the range.

int numbers[8] = {50, 20, 70, 10, 80, 30, 60, 40};

void swap(int *a, int *b) {
  int x = *a;
  *a = *b;
  *b = x;
}

void sort(int *a, int low, int high) {
  int last = low, i = low;
  if (low >= high)
    return;
  while (i + 1 < high) {
    i++;
    if (a[i] < a[low]) {
      last++;
      swap(a + last, a + i);
    }
  }
  swap(a + low, a + last);
  sort(a, low, last);
  sort(a, last + 1, high);
}

int main(void) {
  sort(numbers, 0, 8);
  for (int i = 0; i < 8; i++) {
    putchar('0' + numbers[i] / 10);
    putchar(i < 7 ? ' ' : '\n');
  }
  return numbers[7];
}
