// Frames of a serial line: ':', a digit for the count of bytes, the bytes, and a letter by which the sum of the bytes
// modulo 26 is checked. A '!' anywhere gives a frame up. Each frame is put with what became of it, and the status is how
// many were right.

typedef unsigned char byte;

// Where the receiver is.
// 'w' it waits for ':', 'n' for the count, 'd' for bytes, and 'c' for the letter.
typedef struct {
  byte state;
  byte count, length;
  unsigned sum;
  byte bytes[9];
} receiver;

// What a byte ends: 0 nothing, else a frame that is right, wrong, or given up.
typedef char outcome;

static void restart(receiver *r) { r->state = 'w'; }

static outcome receive(receiver *r, byte c) {
  switch (r->state) {
  case 'w':
    if (c == ':')
      r->state = 'n';
    return 0;
  case 'n':
    switch (c) {
    case '1':
    case '2':
    case '3':
    case '4':
    case '5':
    case '6':
    case '7':
    case '8':
    case '9':
      r->count = 0;
      r->sum = 0;
      r->length = c - '0';
      r->state = 'd';
      return 0;
    case ':':
      return '?'; // a frame begins anew
    case '0':
      r->length = r->sum = 0;
      r->state = 'c';
      return 0;
    }
    break;
  case 'd':
    if (c == '!')
      break;
    r->bytes[r->count++] = c;
    r->sum += c;
    if (r->count == r->length)
      r->state = 'c';
    return 0;
  case 'c':
    restart(r);
    return c == 'a' + r->sum % 26 ? '+' : '-';
  }
  restart(r);
  return '!';
}

static void put(const char *text) {
  while (*text)
    putchar(*text++);
}

static void tell(const receiver *r, outcome what) {
  switch (what) {
  default:
    return;
  case '+':
    put("right:");
    for (int i = 0; i < r->length; i++) {
      putchar(' ');
      putchar(r->bytes[i]);
    }
    break;
  case '-':
    put("wrong letter, not ");
    putchar('a' + (int)(r->sum % 26));
    break;
  case '?':
  case '!':
    put(what == '?' ? "begun anew" : "given up");
  }
  putchar('\n');
}

int main(void) {
  receiver r;
  int c, right = 0;
  restart(&r);
  while ((c = getchar()) != -1) {
    outcome what = receive(&r, c);
    switch (what) {
    case 0:
      continue;
    case '+':
      right++;
    default:
      tell(&r, what);
    }
  }
  return right;
}
