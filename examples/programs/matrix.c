#include <stdio.h>

/* Powers of a matrix of 8 by 8 numbers that count modulo 2 to 32, printed in hexadecimal. */

unsigned a[64], b[64], c[64];

void multiply(void) {
  for (int row = 0; row < 8; row++)
    for (int column = 0; column < 8; column++) {
      unsigned sum = 0;
      for (int k = 0; k < 8; k++)
        sum += a[8 * row + k] * b[8 * k + column];
      c[8 * row + column] = sum;
    }
}

void print(unsigned n) {
  for (int shift = 28; shift >= 0; shift -= 4) {
    int digit = n >> shift & 15;
    putchar(digit < 10 ? '0' + digit : 'a' + digit - 10);
  }
}

int main(void) {
  unsigned seed = 12345;
  for (int k = 0; k < 64; k++) {
    seed = seed * 1103515245u + 12345u;
    a[k] = b[k] = seed >> 16;
  }
  for (int times = 0; times < 5; times++) {
    multiply();
    for (int k = 0; k < 64; k++)
      b[k] = c[k];
  }
  for (int k = 0; k < 64; k++) {
    print(c[k]);
    putchar(k % 8 == 7 ? '\n' : ' ');
  }
  return 0;
}
