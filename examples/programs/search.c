#include <stdio.h>

/* The first line of the input is sought in what follows, by Knuth, Morris and Pratt; prints the place of each finding. */

unsigned char sought[256];
int back[257];

void print(long n) {
  if (n >= 10)
    print(n / 10);
  putchar('0' + n % 10);
}

int read_line(void) {
  int length = 0, byte;
  while ((byte = getchar()) != EOF && byte != '\n')
    if (length < 256)
      sought[length++] = byte;
  return length;
}

void prepare(int length) {
  int at = 0, k = -1;
  back[0] = -1;
  while (at < length) {
    while (k >= 0 && sought[at] != sought[k])
      k = back[k];
    at++;
    k++;
    back[at] = k;
  }
}

int main(void) {
  int length = read_line(), matched = 0, byte, found = 0;
  long place = 0;
  if (length == 0)
    return 3;
  prepare(length);
  while ((byte = getchar()) != EOF) {
    while (matched >= 0 && (matched == length || sought[matched] != byte))
      matched = back[matched];
    matched++;
    place++;
    if (matched == length) {
      print(place - length);
      putchar('\n');
      found++;
    }
  }
  return found > 0 ? 0 : 1;
}
