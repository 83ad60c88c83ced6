// Fixed point with 16 bits behind the point: square roots, a sine by a table, and products of two halves.

const int quarter[17] = {0,     6424,  12785, 19024, 25080, 30893, 36410, 41576, 46341,
                         50660, 54491, 57798, 60547, 62714, 64277, 65220, 65536};

// The product of two numbers, from the products of their halves.
int times(int a, int b) {
  int high = a >> 16, low = a & 0xffff;
  return high * b + low * (b >> 16) + (int)((unsigned)low * (b & 0xffff) >> 16);
}

unsigned root(unsigned n) {
  unsigned bit = 1u << 30, r = 0;
  while (bit > n)
    bit >>= 2;
  for (; bit; bit >>= 2) {
    if (n >= r + bit) {
      n -= r + bit;
      r = (r >> 1) + bit;
    } else {
      r >>= 1;
    }
  }
  return r;
}

// The sine of an angle in 1024ths of a circle.
int sine(int angle) {
  int part = angle & 255, k, low;
  if (angle & 256)
    part = 256 - part;
  k = part >> 4;
  low = quarter[k];
  if (k < 16)
    low += (quarter[k + 1] - low) * (part & 15) / 16;
  return angle & 512 ? -low : low;
}

void put_fixed(int n) {
  unsigned digits;
  if (n < 0) {
    putchar('-');
    n = -n;
  }
  putchar('0' + (n >> 16) / 10 % 10);
  putchar('0' + (n >> 16) % 10);
  putchar('.');
  digits = (unsigned)(n & 0xffff) * 10000 >> 16;
  for (unsigned unit = 1000; unit; unit /= 10)
    putchar('0' + digits / unit % 10);
  putchar('\n');
}

int main(int angle) {
  for (int i = 0; i < 4; i++) {
    int s = sine(angle + 256 * i);
    put_fixed(s);
    put_fixed(times(s, s));
  }
  put_fixed(times(-3 << 15, 5 << 15));
  put_fixed((int)root(2u << 30) << 1);
  return root(angle * angle);
}
