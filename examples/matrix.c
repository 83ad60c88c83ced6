// Matrices of three rows: a product, a transpose, a determinant and a trace.

struct matrix {
  int at[3][3];
};

void multiply(struct matrix *to, const struct matrix *a, const struct matrix *b) {
  for (int i = 0; i < 3; i++)
    for (int k = 0; k < 3; k++) {
      int sum = 0;
      for (int j = 0; j < 3; j++)
        sum += a->at[i][j] * b->at[j][k];
      to->at[i][k] = sum;
    }
}

void transpose(struct matrix *m) {
  for (int i = 0; i < 3; i++)
    for (int k = 0; k < i; k++) {
      int x = m->at[i][k];
      m->at[i][k] = m->at[k][i];
      m->at[k][i] = x;
    }
}

int minor(const struct matrix *m, int row, int column) {
  int a = (row + 1) % 3, b = (row + 2) % 3, c = (column + 1) % 3, d = (column + 2) % 3;
  return m->at[a][c] * m->at[b][d] - m->at[a][d] * m->at[b][c];
}

int determinant(const struct matrix *m) {
  int sum = 0;
  for (int k = 0; k < 3; k++)
    sum += m->at[0][k] * minor(m, 0, k);
  return sum;
}

int trace(const struct matrix *m) {
  const int *p = &m->at[0][0];
  int sum = 0;
  for (int k = 0; k < 3; k++)
    sum += *(m->at[k] + k);
  return p[0] + p[1] < 0 ? -sum : sum;
}

void put_number(int n) {
  char digits[10];
  int count = 0;
  if (n < 0) {
    putchar('-');
    n = -n;
  }
  do
    digits[count++] = '0' + n % 10;
  while (n /= 10);
  while (count)
    putchar(digits[--count]);
}

void put(const struct matrix *m) {
  for (int i = 0; i < 3; i++)
    for (int k = 0; k < 3; k++) {
      put_number(m->at[i][k]);
      putchar(k < 2 ? ' ' : '\n');
    }
}

int main(void) {
  struct matrix a = {{{2, -1, 0}, {4, 3, 7}, {1, 0, -5}}}, b = {{{1, 2, 3}, {0, -2, 5}, {6}}}, c;
  multiply(&c, &a, &b);
  put(&c);
  transpose(&c);
  put(&c);
  put_number(determinant(&a));
  putchar(' ');
  put_number(determinant(&b));
  putchar(' ');
  put_number(determinant(&c));
  putchar('\n');
  return trace(&c);
}
