// The game of life on a torus of 8 times 8 cells: rows of bytes, and two boards of which one follows from the other.

char boards[2][8][8];

int neighbours(char board[8][8], int row, int column) {
  int sum = 0;
  for (int i = 7; i <= 9; i++)
    for (int k = 7; k <= 9; k++)
      if (i != 8 || k != 8)
        sum += board[(row + i) % 8][(column + k) % 8];
  return sum;
}

int follow(char to[8][8], char from[8][8]) {
  int alive = 0;
  for (int i = 0; i < 8; i++)
    for (int k = 0; k < 8; k++) {
      int n = neighbours(from, i, k);
      to[i][k] = n == 3 || n == 2 && from[i][k];
      alive += to[i][k];
    }
  return alive;
}

void put(char board[8][8]) {
  for (int i = 0; i < 8; i++) {
    for (int k = 0; k < 8; k++)
      putchar(board[i][k] ? '#' : '.');
    putchar('\n');
  }
}

int main(int turns) {
  int alive = 0;
  const char *glider = ".#...#####";
  for (int i = 0; i < 9; i++)
    boards[0][i / 3][i % 3] = glider[i] == '#';
  for (int i = 0; i < turns; i++)
    alive = follow(boards[(i + 1) % 2], boards[i % 2]);
  put(boards[turns % 2]);
  return alive;
}
