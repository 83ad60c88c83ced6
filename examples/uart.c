// A line protocol as over a serial port: `S name number` sets a register, `G name` gets it, `L` lists all, `Q` ends.
// Each line is answered by `ok`, a number or an error with its reason.

struct line {
  char text[32];
  int length, at, is_long;
};

struct variable {
  char name[6];
  int value, is_used;
};

struct variable variables[4];

int read(struct line *l) {
  int c;
  l->length = 0;
  l->at = 0;
  l->is_long = 0;
  for (;;) {
    c = getchar();
    if (c == -1)
      return l->length > 0;
    if (c == '\r')
      continue;
    if (c == '\n')
      return 1;
    if (l->length < (int)sizeof l->text)
      l->text[l->length++] = c;
    else
      l->is_long = 1;
  }
}

int word(struct line *l, char *into, int room) {
  int n = 0;
  while (l->at < l->length && l->text[l->at] == ' ')
    l->at++;
  while (l->at < l->length && l->text[l->at] != ' ') {
    if (n == room - 1)
      return 0;
    into[n++] = l->text[l->at++];
  }
  into[n] = 0;
  return n > 0;
}

int number(struct line *l, int *into) {
  char digits[8];
  int n = 0, i = 0, sign = 1;
  if (!word(l, digits, sizeof digits))
    return 0;
  if (digits[0] == '-') {
    sign = -1;
    i = 1;
  }
  if (!digits[i])
    return 0;
  for (; digits[i]; i++) {
    if (digits[i] < '0' || digits[i] > '9')
      return 0;
    n = n * 10 + (digits[i] - '0');
  }
  *into = sign * n;
  return 1;
}

int are_equal(const char *a, const char *b) {
  while (*a && *a == *b)
    a++, b++;
  return *a == *b;
}

struct variable *find(const char *name, int is_new) {
  struct variable *free_one = 0;
  for (int i = 0; i < 4; i++) {
    struct variable *v = &variables[i];
    if (v->is_used && are_equal(v->name, name))
      return v;
    if (!v->is_used && !free_one)
      free_one = v;
  }
  return is_new ? free_one : 0;
}

void put_text(const char *text) {
  while (*text)
    putchar(*text++);
}

void put_number(int n) {
  char digits[10];
  int count = 0;
  if (n < 0) {
    putchar('-');
    n = -n;
  }
  do
    digits[count++] = '0' + n % 10;
  while (n /= 10);
  while (count)
    putchar(digits[--count]);
}

int fail(const char *reason) {
  put_text("error ");
  put_text(reason);
  putchar('\n');
  return 1;
}

int set(struct line *l) {
  char name[6];
  struct variable *v;
  int value;
  if (!word(l, name, sizeof name))
    return fail("name");
  if (!number(l, &value))
    return fail("number");
  v = find(name, 1);
  if (!v)
    return fail("full");
  for (int i = 0; i < 6; i++) {
    v->name[i] = name[i];
    if (!name[i])
      break;
  }
  v->value = value;
  v->is_used = 1;
  put_text("ok\n");
  return 0;
}

int get(struct line *l) {
  char name[6];
  struct variable *v;
  if (!word(l, name, sizeof name))
    return fail("name");
  v = find(name, 0);
  if (!v)
    return fail("unknown");
  put_number(v->value);
  putchar('\n');
  return 0;
}

int list(void) {
  for (int i = 0; i < 4; i++)
    if (variables[i].is_used) {
      put_text(variables[i].name);
      putchar('=');
      put_number(variables[i].value);
      putchar('\n');
    }
  return 0;
}

int main(void) {
  struct line l;
  char command[2];
  int errors = 0;
  while (read(&l)) {
    if (l.is_long)
      errors += fail("long");
    else if (!word(&l, command, sizeof command))
      errors += fail("command");
    else if (command[0] == 'S')
      errors += set(&l);
    else if (command[0] == 'G')
      errors += get(&l);
    else if (command[0] == 'L')
      errors += list();
    else if (command[0] == 'Q')
      break;
    else
      errors += fail("command");
  }
  return errors;
}
