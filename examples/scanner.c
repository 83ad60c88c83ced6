// The tokens of a small language: names, numbers in three bases, characters, and operators of one to three marks, the
// longest first; comments are skipped. Each token is put with its line and its kind, and the status is the count of faults.

typedef unsigned char byte;
typedef unsigned word;

typedef struct scanner scanner;
typedef struct {
  byte kind; // 'n' a name, '0' a number, 'c' a character, 'o' an operator, '?' a fault, 0 the end
  word line;
  word value, length;
  byte text[12];
} token;

struct scanner {
  int next; // the byte in view, or -1
  word line;
};

static void advance(scanner *s) {
  if (s->next == '\n')
    s->line++;
  s->next = getchar();
}

static void take(scanner *s, token *t) {
  if (t->length < 12)
    t->text[t->length++] = s->next;
  advance(s);
}

static int is_digit(int c) { return c >= '0' && c <= '9'; }

static int is_letter(int c) { return c >= 'a' && c <= 'z' || c >= 'A' && c <= 'Z' || c == '_'; }

// The value of a digit in any base, or 36.
static word digit(int c) {
  if (is_digit(c))
    return c - '0';
  if (c >= 'a' && c <= 'z')
    return c - 'a' + 10;
  return 36;
}

static void number(scanner *s, token *t) {
  word base = 10;
  t->kind = '0';
  if (s->next == '0') {
    take(s, t);
    switch (s->next) {
    case 'x':
      base = 16;
      take(s, t);
      break;
    case 'b':
      base = 2;
      take(s, t);
      break;
    default:
      if (is_digit(s->next))
        base = 8;
    }
  }
  while (is_digit(s->next) || is_letter(s->next)) {
    word d = digit(s->next);
    if (d >= base)
      t->kind = '?';
    t->value = t->value * base + d;
    take(s, t);
  }
}

static void character(scanner *s, token *t) {
  t->kind = 'c';
  take(s, t);
  switch (s->next) {
  case '\\':
    take(s, t);
    switch (s->next) {
    case 'n':
      t->value = '\n';
      break;
    case 't':
      t->value = '\t';
      break;
    case '0':
      t->value = 0;
      break;
    case '\\': case '\'':
      t->value = s->next;
      break;
    default:
      t->kind = '?';
    }
    break;
  case '\n': case '\'': case -1:
    t->kind = '?';
    return;
  default:
    t->value = s->next;
  }
  take(s, t);
  if (s->next == '\'')
    take(s, t);
  else
    t->kind = '?';
}

// An operator that may be doubled, and that may have `=` behind it.
static void doubled(scanner *s, token *t, int mark) {
  take(s, t);
  if (s->next == mark)
    take(s, t);
  if (s->next == '=')
    take(s, t);
}

// Whether a token begins: what doesn't is skipped.
static int begins(scanner *s) {
  switch (s->next) {
  case ' ': case '\t': case '\n':
    advance(s);
    return 0;
  case '#':
    while (s->next != '\n' && s->next != -1)
      advance(s);
    return 0;
  }
  return 1;
}

static void scan(scanner *s, token *t) {
  while (!begins(s))
    ;
  t->line = s->line;
  t->value = t->length = 0;
  t->kind = 'o';
  switch (s->next) {
  case -1:
    t->kind = 0;
    break;
  case '<': case '>': case '&': case '|': case '+': case '-':
    doubled(s, t, s->next);
    break;
  case '=': case '!': case '*': case '/': case '%': case '^':
    take(s, t);
    if (s->next == '=')
      take(s, t);
    break;
  case '.':
    take(s, t);
    switch (s->next) {
    case '.':
      take(s, t);
      if (s->next == '.')
        take(s, t);
      else
        t->kind = '?';
    }
    break;
  case '(': case ')': case '[': case ']': case '{': case '}': case ',': case ';': case '~': case '?': case ':':
    take(s, t);
    break;
  case '\'':
    character(s, t);
    break;
  default:
    if (is_digit(s->next)) {
      number(s, t);
    } else if (is_letter(s->next)) {
      t->kind = 'n';
      while (is_letter(s->next) || is_digit(s->next))
        take(s, t);
    } else {
      t->kind = '?';
      take(s, t);
    }
  }
}

static void put_number(word n) {
  if (n >= 1000)
    putchar('0' + (int)(n / 1000 % 10));
  if (n >= 100)
    putchar('0' + (int)(n / 100 % 10));
  if (n >= 10)
    putchar('0' + (int)(n / 10 % 10));
  putchar('0' + (int)(n % 10));
}

static void put(const token *t) {
  put_number(t->line);
  putchar(' ');
  putchar(t->kind);
  putchar(' ');
  for (word i = 0; i < t->length; i++)
    putchar(t->text[i]);
  switch (t->kind) {
  case '0': case 'c':
    putchar(' ');
    put_number(t->value);
  }
  putchar('\n');
}

int main(void) {
  scanner s;
  token t;
  int faults = 0;
  s.line = 1;
  s.next = getchar();
  for (;;) {
    scan(&s, &t);
    switch (t.kind) {
    case 0:
      return faults;
    case '?':
      faults++;
    default:
      put(&t);
    }
  }
}
