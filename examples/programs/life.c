#include <stdio.h>

/* The game of life on a field of 16 by 16 cells whose edges meet: reads a generation, prints the four that follow. */

unsigned char now[256], then[256];

int alive(int row, int column) { return now[16 * ((row + 16) % 16) + (column + 16) % 16]; }

int neighbours(int row, int column) {
  int n = 0, down, right;
  for (down = -1; down <= 1; down++)
    for (right = -1; right <= 1; right++)
      if (down != 0 || right != 0)
        n += alive(row + down, column + right);
  return n;
}

void step(void) {
  for (int row = 0; row < 16; row++)
    for (int column = 0; column < 16; column++) {
      int n = neighbours(row, column);
      then[16 * row + column] = n == 3 || (n == 2 && alive(row, column));
    }
  for (int k = 0; k < 256; k++)
    now[k] = then[k];
}

void print(void) {
  for (int row = 0; row < 16; row++) {
    for (int column = 0; column < 16; column++)
      putchar(alive(row, column) ? '#' : '.');
    putchar('\n');
  }
  putchar('\n');
}

int main(void) {
  int byte, row = 0, column = 0;
  while ((byte = getchar()) != EOF && row < 16)
    if (byte == '\n') {
      row++;
      column = 0;
    } else if (column < 16)
      now[16 * row + column++] = byte == '#';
  for (int k = 0; k < 4; k++) {
    step();
    print();
  }
  return 0;
}
