// The tokens of a file of settings: names, each kept once and cut after seven letters, numbers and marks. A `#` begins a
// comment. Each token is put with its line and column, and at the end each name with how often it stands there.

typedef unsigned char byte;
typedef unsigned word;
typedef char label[8];

typedef struct {
  word line, column;
} place;

typedef struct name name;
struct name {
  label text;
  word count;
  name *next;
};

// Lists of names, each of those whose letters have the same sum modulo 4.
typedef name *chains[4];

// The kind is 'a' for a name, '0' for a number, else the mark itself; '?' for what is no token, and 0 for the end.
typedef struct {
  byte kind;
  place at;
  word value;
  name *name;
} token;

typedef struct {
  int next;
  place at;
} source;

static name names[6];
static word name_count;
static chains table;

static void advance(source *s) {
  if (s->next == '\n') {
    s->at.line++;
    s->at.column = 1;
  } else {
    s->at.column++;
  }
  s->next = getchar();
}

static void skip(source *s) {
  int in_comment = 0;
  while (s->next == ' ' || s->next == '\n' || s->next == '#' || in_comment && s->next != -1) {
    in_comment = s->next == '#' || in_comment && s->next != '\n';
    advance(s);
  }
}

static int is_letter(int c) { return c >= 'a' && c <= 'z' || c == '_'; }

// The value of a digit, 16 where it is none.
static word digit(int c) {
  return c >= '0' && c <= '9' ? (word)(c - '0') : c >= 'a' && c <= 'f' ? (word)(c - 'a') + 10 : 16;
}

static int are_equal(const char *a, const char *b) {
  while (*a && *a == *b) {
    a++;
    b++;
  }
  return *a == *b;
}

static void copy(char *to, const char *from) {
  while (*to++ = *from++)
    ;
}

// The name of this text, a new one where there is none yet; null where the table is full.
static name *find(chains in, const label text) {
  word sum = 0;
  name **at;
  for (const char *p = text; *p; p++)
    sum += (byte)*p;
  for (at = &in[sum % (sizeof(chains) / sizeof(name *))]; *at; at = &(*at)->next)
    if (are_equal((*at)->text, text))
      return *at;
  if (name_count < sizeof names / sizeof(name)) {
    *at = &names[name_count++];
    copy((*at)->text, text);
  }
  return *at;
}

static void read_name(source *s, token *into) {
  label text;
  word n = 0;
  while (is_letter(s->next) || digit(s->next) < 10) {
    if (n < sizeof(label) - 1)
      text[n++] = (char)s->next;
    advance(s);
  }
  text[n] = 0;
  into->name = find(table, text);
  if (into->name)
    into->name->count++;
}

static void read_number(source *s, token *into) {
  word base = 10;
  if (s->next == '0') {
    advance(s);
    if (s->next == 'x') {
      base = 16;
      advance(s);
    }
  }
  while (digit(s->next) < base) {
    into->value = into->value * base + digit(s->next);
    advance(s);
  }
}

static void read(source *s, token *into) {
  const token empty = {0};
  skip(s);
  *into = empty;
  into->at = s->at;
  if (s->next == -1)
    return;
  if (is_letter(s->next)) {
    into->kind = 'a';
    read_name(s, into);
  } else if (digit(s->next) < 10) {
    into->kind = '0';
    read_number(s, into);
  } else {
    into->kind = s->next == '=' || s->next == ',' || s->next == ';' ? (byte)s->next : '?';
    advance(s);
  }
}

static void put_text(const char *text) {
  while (*text)
    putchar(*text++);
}

static void put_number(word n) {
  char digits[10];
  int count = 0;
  do
    digits[count++] = '0' + n % 10;
  while (n /= 10);
  while (count)
    putchar(digits[--count]);
}

static void put(const token *t) {
  put_number(t->at.line);
  putchar(':');
  put_number(t->at.column);
  putchar(' ');
  if (t->kind == '0')
    put_number(t->value);
  else if (t->kind == 'a')
    put_text(t->name ? t->name->text : "no room");
  else
    putchar(t->kind);
  putchar('\n');
}

int main(void) {
  source s = {getchar(), {1, 1}};
  token t;
  int faults = 0;
  for (read(&s, &t); t.kind; read(&s, &t)) {
    put(&t);
    faults += t.kind == '?' || t.kind == 'a' && !t.name;
  }
  for (const name *n = names; n < names + name_count; n++) {
    put_text(n->text);
    putchar(' ');
    put_number(n->count);
    putchar('\n');
  }
  return faults;
}
