#include <stdio.h>

/* Reads a number of at most four digits and prints the primes up to it, a line each. */

_Bool composite[10000];

void print(int n) {
  if (n >= 10)
    print(n / 10);
  putchar('0' + n % 10);
}

int number(void) {
  int n = 0, byte, digits = 0;
  while ((byte = getchar()) >= '0' && byte <= '9' && digits++ < 4)
    n = 10 * n + byte - '0';
  return n;
}

int main(void) {
  int limit = number(), found = 0;
  for (int n = 2; n <= limit; n++) {
    if (composite[n])
      continue;
    found++;
    print(n);
    putchar('\n');
    for (int k = n * n; k <= limit; k += n)
      composite[k] = 1;
  }
  return found % 256;
}
