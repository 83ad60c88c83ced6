// Insertion sort, shell sort and heap sort of the same numbers, and a binary search in what is sorted.

int given[12] = {31, -4, 15, 92, 65, -35, 89, 79, 3, 23, 84, 62};

void copy(int *to, const int *from, int n) {
  for (int i = 0; i < n; i++)
    to[i] = from[i];
}

void insertion_sort(int *a, int n) {
  for (int i = 1; i < n; i++) {
    int x = a[i], k = i;
    while (k > 0 && a[k - 1] > x) {
      a[k] = a[k - 1];
      k--;
    }
    a[k] = x;
  }
}

void shell_sort(int *a, int n) {
  for (int gap = n / 2; gap > 0; gap /= 2)
    for (int i = gap; i < n; i++)
      for (int k = i - gap; k >= 0 && a[k] > a[k + gap]; k -= gap) {
        int x = a[k];
        a[k] = a[k + gap];
        a[k + gap] = x;
      }
}

void sift(int *a, int root, int n) {
  for (;;) {
    int child = 2 * root + 1, x;
    if (child >= n)
      return;
    if (child + 1 < n && a[child + 1] > a[child])
      child++;
    if (a[root] >= a[child])
      return;
    x = a[root];
    a[root] = a[child];
    a[child] = x;
    root = child;
  }
}

void heap_sort(int *a, int n) {
  for (int i = n / 2 - 1; i >= 0; i--)
    sift(a, i, n);
  for (int i = n - 1; i > 0; i--) {
    int x = a[0];
    a[0] = a[i];
    a[i] = x;
    sift(a, 0, i);
  }
}

int find(const int *a, int n, int x) {
  int low = 0, high = n;
  while (low < high) {
    int middle = low + (high - low) / 2;
    if (a[middle] < x)
      low = middle + 1;
    else
      high = middle;
  }
  return low < n && a[low] == x ? low : -1;
}

void put_number(int n) {
  if (n < 0) {
    putchar('-');
    n = -n;
  }
  if (n >= 10)
    putchar('0' + n / 10);
  putchar('0' + n % 10);
}

void put_all(const int *a, int n) {
  for (int i = 0; i < n; i++) {
    if (i)
      putchar(' ');
    put_number(a[i]);
  }
  putchar('\n');
}

int main(int x) {
  int a[12], b[12], c[12];
  copy(a, given, 12);
  copy(b, given, 12);
  copy(c, given, 12);
  insertion_sort(a, 12);
  shell_sort(b, 12);
  heap_sort(c, 12);
  put_all(a, 12);
  put_all(b, 12);
  put_all(c, 12);
  return find(c, 12, x);
}
