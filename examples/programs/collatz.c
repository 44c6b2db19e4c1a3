#include <stdio.h>

/* For the numbers below 3,000 the one whose sequence 3n + 1 is the longest, its length, and its greatest member. */

int lengths[3000];

int length(long n) {
  if (n == 1)
    return 1;
  if (n < 3000 && lengths[n])
    return lengths[n];
  int found = 1 + length(n % 2 ? 3 * n + 1 : n / 2);
  if (n < 3000)
    lengths[n] = found;
  return found;
}

long greatest(long n) {
  long most = n;
  do {
    n = n & 1 ? 3 * n + 1 : n >> 1;
    if (n > most)
      most = n;
  } while (n != 1);
  return most;
}

void print(long n) {
  if (n >= 10)
    print(n / 10);
  putchar('0' + n % 10);
}

int main(void) {
  int best = 1;
  for (int n = 1; n < 3000; n++)
    if (length(n) > length(best))
      best = n;
  print(best);
  putchar(' ');
  print(length(best));
  putchar(' ');
  print(greatest(best));
  putchar('\n');
  return 0;
}
