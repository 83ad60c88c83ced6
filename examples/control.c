// A controller of a heater with whole numbers: a part by the error, a part by its sum and a part by its change, the
// output held between 0 and 100. The plant is a room that cools.

struct controller {
  int target, sum, last;
};

int limit(int n, int low, int high) { return n < low ? low : n > high ? high : n; }

int control(struct controller *c, int measured) {
  int error = c->target - measured;
  int change = error - c->last;
  c->sum = limit(c->sum + error, -400, 400);
  c->last = error;
  return limit((12 * error + c->sum + 20 * change) / 16, 0, 100);
}

int main(int target, int outside) {
  struct controller c = {0};
  int room = 10 * outside, heat, turns = 0;
  c.target = target * 10;
  do {
    heat = control(&c, room);
    room += heat / 5 - (room - 10 * outside) / 20;
    if (turns % 8 == 0)
      for (int i = 0; i <= heat / 10; i++)
        putchar(i == heat / 10 ? '\n' : '#');
  } while (++turns < 96);
  return room / 10;
}
