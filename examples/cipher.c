// XTEA: a block is enciphered and deciphered with a key of four words.

struct block {
  unsigned left, right;
};

const unsigned key[4] = {0x00010203, 0x04050607, 0x08090a0b, 0x0c0d0e0f};

void encipher(struct block *b) {
  unsigned sum = 0;
  for (int i = 0; i < 32; i++) {
    b->left += (b->right << 4 ^ b->right >> 5) + b->right ^ sum + key[sum & 3];
    sum += 0x9e3779b9;
    b->right += (b->left << 4 ^ b->left >> 5) + b->left ^ sum + key[sum >> 11 & 3];
  }
}

void decipher(struct block *b) {
  unsigned sum = 0x9e3779b9 * 32u;
  for (int i = 0; i < 32; i++) {
    b->right -= (b->left << 4 ^ b->left >> 5) + b->left ^ sum + key[sum >> 11 & 3];
    sum -= 0x9e3779b9;
    b->left -= (b->right << 4 ^ b->right >> 5) + b->right ^ sum + key[sum & 3];
  }
}

void put_hex(unsigned n) {
  for (int shift = 28; shift >= 0; shift -= 4)
    putchar("0123456789abcdef"[n >> shift & 15]);
}

void put(const struct block *b) {
  put_hex(b->left);
  putchar(' ');
  put_hex(b->right);
  putchar('\n');
}

int main(void) {
  struct block b = {0x41424344, 0x45464748};
  encipher(&b);
  put(&b);
  decipher(&b);
  put(&b);
  return 0;
}
