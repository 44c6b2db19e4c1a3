#include <stdio.h>

/* Sorts the bytes of its input by insertion and by counting, and says whether both agree. */

unsigned char by_insertion[4096], by_counting[4096];
int counts[256];

int insert(int count, int byte) {
  int at = count;
  while (at > 0 && by_insertion[at - 1] > byte) {
    by_insertion[at] = by_insertion[at - 1];
    at--;
  }
  by_insertion[at] = byte;
  return count + 1;
}

void spread(void) {
  int byte, at = 0;
  for (byte = 0; byte < 256; byte++)
    for (int k = 0; k < counts[byte]; k++)
      by_counting[at++] = byte;
}

int main(void) {
  int byte, count = 0;
  while (count < 4096 && (byte = getchar()) != EOF) {
    count = insert(count, byte);
    counts[byte]++;
  }
  spread();
  for (int at = 0; at < count; at++) {
    if (by_insertion[at] != by_counting[at])
      return 1;
    putchar(by_insertion[at]);
  }
  return 0;
}
