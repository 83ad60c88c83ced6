// A table of commands with texts and numbers: each line of the input is looked up and answered.

struct command {
  char *name;
  char *help;
  int code;
};

struct command commands[] = {
  {"led", "switch the lamp", 10},
  {"reset", "start again", 20},
  {"temp", "tell the temperature", 30},
  {"ver", "tell the version", 40},
};

int are_equal(const char *a, const char *b) {
  while (*a && *a == *b) {
    a++;
    b++;
  }
  return *a == *b;
}

void put_text(const char *text) {
  while (*text)
    putchar(*text++);
}

struct command *find(const char *name) {
  for (unsigned i = 0; i < sizeof commands / sizeof commands[0]; i++)
    if (are_equal(commands[i].name, name))
      return &commands[i];
  return 0;
}

int read_line(char *into, int room) {
  int n = 0, c;
  while ((c = getchar()) != -1 && c != '\n')
    if (n < room - 1)
      into[n++] = c;
  into[n] = 0;
  return n > 0 || c != -1;
}

int main(void) {
  char line[8];
  int sum = 0;
  while (read_line(line, sizeof line)) {
    struct command *c = find(line);
    put_text(line);
    if (c) {
      put_text(": ");
      put_text(c->help);
      sum += c->code;
    } else {
      put_text(": no such command");
    }
    putchar('\n');
  }
  return sum;
}
