// A small machine with a stack. Its program is read from the input up to '.', a byte an instruction; what follows is the
// program's own input. The status is what is left on top, or 255 where the program is wrong.
//
// 0 to 9 push a digit, and 'x' takes the top times ten, plus the next digit; + - * / % and < = work on the two topmost; d
// copies the top, s swaps two, p drops it; g and ! read and write the cell that the top tells; i takes a byte and o puts
// one, n puts a number; [ goes behind its ] where the top is 0, and ] goes back to its [; h halts.

typedef unsigned char byte;
typedef unsigned word;

typedef struct {
  byte code[160];
  word length, at;
  int stack[16];
  word depth;
  int cells[10];
  int failed;
} machine;

static machine m;

static void push(int value) {
  if (m.depth == 16)
    m.failed = 1;
  else
    m.stack[m.depth++] = value;
}

static int pop(void) {
  if (m.depth == 0) {
    m.failed = 1;
    return 0;
  }
  return m.stack[--m.depth];
}

static int *cell(int number) {
  if (number < 0 || number >= 10) {
    m.failed = 1;
    number = 0;
  }
  return m.cells + number;
}

// Past the bracket that belongs to this one, up or down.
static void match(int step) {
  int open = 0;
  do {
    switch (m.code[m.at]) {
    case '[':
      open++;
      break;
    case ']':
      open--;
    }
    m.at += step;
    if (m.at >= m.length)
      m.failed = open != 0 || step < 0;
  } while (open && !m.failed);
  if (step < 0)
    m.at++;
}

static void put_number(int n) {
  int digits[10];
  int count = 0;
  if (n < 0) {
    putchar('-');
    n = -n;
  }
  do
    digits[count++] = n % 10;
  while (n /= 10);
  while (count)
    putchar('0' + digits[--count]);
}

static void operate(byte what) {
  int right = pop(), left = pop();
  switch (what) {
  case '+':
    left += right;
    break;
  case '-':
    left -= right;
    break;
  case '*':
    left *= right;
    break;
  case '<':
    left = left < right;
    break;
  case '=':
    left = left == right;
    break;
  default: // division
    if (right <= 0) {
      m.failed = 1;
      return;
    }
    left = what == '/' ? left / right : left % right;
  }
  push(left);
}

// Whether the machine goes on.
static int step(void) {
  byte what = m.code[m.at++];
  switch (what) {
    int value;

  case '0': case '1': case '2': case '3': case '4':
  case '5': case '6': case '7': case '8': case '9':
    push(what - '0');
    break;
  case 'x':
    value = pop();
    push(value * 10 + (m.code[m.at++] - '0'));
    break;
  case '+': case '-': case '*': case '/': case '%': case '<': case '=':
    operate(what);
    break;
  case 'd':
    value = pop();
    push(value);
    push(value);
    break;
  case 's': {
    int under;
    value = pop();
    under = pop();
    push(value);
    push(under);
    break;
  }
  case 'p':
    pop();
    break;
  case 'g':
    push(*cell(pop()));
    break;
  case '!':
    value = pop();
    *cell(value) = pop();
    break;
  case 'i':
    push(getchar());
    break;
  case 'o':
    putchar(pop());
    break;
  case 'n':
    put_number(pop());
    break;
  case '[':
    value = pop();
    push(value);
    if (value == 0) {
      m.at--;
      match(1);
    }
    break;
  case ']':
    m.at--;
    match(-1);
    break;
  case ' ':
  case '\n':
    break;
  default:
    m.failed = 1;
  case 'h':
    return 0;
  }
  return !m.failed && m.at < m.length;
}

int main(void) {
  int c;
  while ((c = getchar()) != -1 && c != '.')
    if (m.length < 160)
      m.code[m.length++] = c;
  if (m.length)
    while (step())
      ;
  return m.failed ? 255 : pop() & 255;
}
