// Decimal digits without division: a number becomes packed digits by shifting and adding 3, and these become a number
// again.

struct packed {
  char digits[5];
};

void pack(struct packed *p, unsigned n) {
  for (int i = 0; i < 5; i++)
    p->digits[i] = 0;
  for (int bit = 31; bit >= 0; bit--) {
    unsigned carry = n >> bit & 1;
    for (int i = 0; i < 5; i++) {
      unsigned d = p->digits[i];
      if ((d & 15) >= 5)
        d += 3;
      if (d >> 4 >= 5)
        d += 48;
      d = d << 1 | carry;
      p->digits[i] = d;
      carry = d >> 8;
    }
  }
}

unsigned unpack(const struct packed *p) {
  unsigned n = 0;
  for (int i = 4; i >= 0; i--) {
    n = (n << 3) + (n << 1) + (p->digits[i] >> 4);
    n = (n << 3) + (n << 1) + (p->digits[i] & 15);
  }
  return n;
}

int main(unsigned n) {
  struct packed p;
  int is_begun = 0;
  pack(&p, n);
  for (int i = 9; i >= 0; i--) {
    int digit = p.digits[i / 2] >> (i & 1) * 4 & 15;
    is_begun |= digit || !i;
    if (is_begun)
      putchar('0' + digit);
  }
  putchar('\n');
  return unpack(&p) == n ? 0 : 1;
}
