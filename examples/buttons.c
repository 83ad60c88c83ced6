// Debounces three buttons: a change counts once it was seen four times in a row. Each input byte has the pins in its low
// bits; presses, long presses and releases are told.

struct button {
  int is_down, seen, held;
};

struct button buttons[3];

void tell(int button, char what) {
  putchar('A' + button);
  putchar(what);
}

void sample(int i, int pin) {
  struct button *b = buttons + i;
  if (pin == b->is_down) {
    b->seen = 0;
  } else if (++b->seen == 4) {
    b->is_down = pin;
    b->seen = b->held = 0;
    tell(i, pin ? '+' : '-');
  }
  if (b->is_down && ++b->held == 10)
    tell(i, '*');
}

int main(void) {
  int pins, time = 0;
  while ((pins = getchar()) != -1) {
    for (int i = 0; i < 3; i++)
      sample(i, pins >> i & 1);
    time++;
  }
  putchar('\n');
  return time;
}
