// SHA-256 of the input (FIPS 180-4), one block of 64 bytes after the other.

const unsigned rounds[64] = {
  0x428a2f98, 0x71374491, 0xb5c0fbcf, 0xe9b5dba5, 0x3956c25b, 0x59f111f1, 0x923f82a4, 0xab1c5ed5,
  0xd807aa98, 0x12835b01, 0x243185be, 0x550c7dc3, 0x72be5d74, 0x80deb1fe, 0x9bdc06a7, 0xc19bf174,
  0xe49b69c1, 0xefbe4786, 0x0fc19dc6, 0x240ca1cc, 0x2de92c6f, 0x4a7484aa, 0x5cb0a9dc, 0x76f988da,
  0x983e5152, 0xa831c66d, 0xb00327c8, 0xbf597fc7, 0xc6e00bf3, 0xd5a79147, 0x06ca6351, 0x14292967,
  0x27b70a85, 0x2e1b2138, 0x4d2c6dfc, 0x53380d13, 0x650a7354, 0x766a0abb, 0x81c2c92e, 0x92722c85,
  0xa2bfe8a1, 0xa81a664b, 0xc24b8b70, 0xc76c51a3, 0xd192e819, 0xd6990624, 0xf40e3585, 0x106aa070,
  0x19a4c116, 0x1e376c08, 0x2748774c, 0x34b0bcb5, 0x391c0cb3, 0x4ed8aa4a, 0x5b9cca4f, 0x682e6ff3,
  0x748f82ee, 0x78a5636f, 0x84c87814, 0x8cc70208, 0x90befffa, 0xa4506ceb, 0xbef9a3f7, 0xc67178f2,
};

struct digest {
  unsigned words[8];
  unsigned block[16];
  unsigned length;
};

unsigned turn(unsigned n, int by) { return n >> by | n << (32 - by); }

void begin(struct digest *d) {
  unsigned words[8] = {0x6a09e667, 0xbb67ae85, 0x3c6ef372, 0xa54ff53a,
                       0x510e527f, 0x9b05688c, 0x1f83d9ab, 0x5be0cd19};
  for (int i = 0; i < 8; i++)
    d->words[i] = words[i];
  d->length = 0;
}

unsigned next_word(unsigned *w, int i) {
  unsigned a = w[(i + 1) & 15], b = w[(i + 14) & 15];
  unsigned s = turn(a, 7) ^ turn(a, 18) ^ a >> 3, t = turn(b, 17) ^ turn(b, 19) ^ b >> 10;
  return w[i & 15] += s + w[(i + 9) & 15] + t;
}

void take_block(struct digest *d) {
  unsigned v[8];
  for (int i = 0; i < 8; i++)
    v[i] = d->words[i];
  for (int i = 0; i < 64; i++) {
    unsigned w = i < 16 ? d->block[i] : next_word(d->block, i);
    unsigned s = turn(v[4], 6) ^ turn(v[4], 11) ^ turn(v[4], 25);
    unsigned t = v[7] + s + (v[4] & v[5] ^ ~v[4] & v[6]) + rounds[i] + w;
    unsigned r = turn(v[0], 2) ^ turn(v[0], 13) ^ turn(v[0], 22);
    unsigned u = r + (v[0] & v[1] ^ v[0] & v[2] ^ v[1] & v[2]);
    for (int k = 7; k > 0; k--)
      v[k] = v[k - 1];
    v[4] += t;
    v[0] = t + u;
  }
  for (int i = 0; i < 8; i++)
    d->words[i] += v[i];
}

void take(struct digest *d, unsigned byte) {
  unsigned at = d->length % 64;
  d->block[at / 4] = at % 4 ? d->block[at / 4] << 8 | byte : byte;
  d->length++;
  if (at == 63)
    take_block(d);
}

void end(struct digest *d) {
  unsigned bits = d->length * 8;
  take(d, 0x80);
  while (d->length % 64 != 60)
    take(d, 0);
  for (int shift = 24; shift >= 0; shift -= 8)
    take(d, bits >> shift & 255);
}

void put_hex(unsigned n) {
  for (int shift = 28; shift >= 0; shift -= 4)
    putchar("0123456789abcdef"[n >> shift & 15]);
}

int main(void) {
  struct digest d;
  int c;
  begin(&d);
  while ((c = getchar()) != -1)
    take(&d, c);
  end(&d);
  for (int i = 0; i < 8; i++)
    put_hex(d.words[i]);
  putchar('\n');
  return 0;
}
