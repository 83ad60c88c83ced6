// A calculator: reads sums like 3+4*(2-7), with the operators + - * / % and parentheses, by two stacks of its own and
// no recursion.

struct stack {
  int items[16];
  int count;
};

struct stack values, operators;

int push(struct stack *s, int x) {
  if (s->count == 16)
    return 0;
  s->items[s->count++] = x;
  return 1;
}

int pop(struct stack *s) { return s->count ? s->items[--s->count] : 0; }

int top(const struct stack *s) { return s->count ? s->items[s->count - 1] : 0; }

int strength(int c) {
  if (c == '*' || c == '/' || c == '%')
    return 2;
  return c == '+' || c == '-';
}

int apply(void) {
  int c = pop(&operators), b = pop(&values), a = pop(&values);
  if ((c == '/' || c == '%') && (b == 0 || b == -1 && a == -2147483647 - 1))
    return 0;
  return push(&values, c == '+' ? a + b : c == '-' ? a - b : c == '*' ? a * b : c == '/' ? a / b : a % b);
}

int close(void) {
  while (operators.count && top(&operators) != '(')
    if (!apply())
      return 0;
  return operators.count ? pop(&operators) : 0;
}

int operate(int c) {
  while (strength(top(&operators)) >= strength(c))
    if (!apply())
      return 0;
  return push(&operators, c);
}

void put_number(int n) {
  char digits[10];
  int count = 0;
  unsigned rest = n < 0 ? 0u - n : (unsigned)n;
  if (n < 0)
    putchar('-');
  do
    digits[count++] = '0' + rest % 10;
  while (rest /= 10);
  while (count)
    putchar(digits[--count]);
}

// The last byte of the line that was read, or 0 where the line is no sum.
int read_sum(void) {
  int c, is_number = 0;
  values.count = 0;
  operators.count = 0;
  while ((c = getchar()) != -1 && c != '\n') {
    if (c >= '0' && c <= '9') {
      if (!push(&values, (is_number ? pop(&values) * 10 : 0) + c - '0'))
        return 0;
      is_number = 1;
      continue;
    }
    is_number = 0;
    if (c == '(' ? !push(&operators, c) : c == ')' ? !close() : strength(c) ? !operate(c) : c != ' ')
      return 0;
  }
  while (operators.count)
    if (!apply())
      return 0;
  return c;
}

int main(void) {
  int c;
  for (;;) {
    c = read_sum();
    if (c == -1)
      break;
    if (c == 0) {
      putchar('?');
      while ((c = getchar()) != -1 && c != '\n')
        ;
    } else {
      put_number(top(&values));
    }
    putchar('\n');
    if (c == -1)
      break;
  }
  return values.count;
}
