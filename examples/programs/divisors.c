#include <stdio.h>

/* A table of greatest common divisors of the numbers from 1 to 12, by Euclid. */

int divisor(int a, int b) { return b == 0 ? a : divisor(b, a % b); }

int main(void) {
  int a, b;
  for (a = 1; a <= 12; a++) {
    for (b = 1; b <= 12; b++) {
      int d = divisor(a, b);
      if (d < 10)
        putchar(' ');
      if (d >= 10)
        putchar('0' + d / 10);
      putchar('0' + d % 10);
      putchar(b < 12 ? ' ' : '\n');
    }
  }
  return divisor(1071, 462);
}
