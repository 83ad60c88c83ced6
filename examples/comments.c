// A state machine that takes comments out of a C text, and leaves characters and texts as they are.

int main(void) {
  int state = 0, c, quote = 0, removed = 0;
  while ((c = getchar()) != -1) {
    if (state == 0) { // code
      if (c == '/') {
        state = 1;
      } else {
        putchar(c);
        if (c == '"' || c == '\'') {
          quote = c;
          state = 4;
        }
      }
    } else if (state == 1) { // behind a slash
      if (c == '*') {
        state = 2;
      } else {
        putchar('/');
        if (c != '/') {
          putchar(c);
          state = 0;
        }
      }
    } else if (state == 2) { // in a comment
      if (c == '*')
        state = 3;
    } else if (state == 3) { // behind a star in a comment
      if (c == '/') {
        putchar(' ');
        removed++;
        state = 0;
      } else if (c != '*') {
        state = 2;
      }
    } else if (state == 4) { // in a text
      putchar(c);
      if (c == '\\')
        state = 5;
      else if (c == quote)
        state = 0;
    } else { // behind a backslash in a text
      putchar(c);
      state = 4;
    }
  }
  if (state == 1)
    putchar('/');
  return removed;
}
