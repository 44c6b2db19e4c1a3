#include <stdio.h>

/* Counts the lines, the words and the bytes of its input. */

int lines, words, bytes;

int blank(int c) {
  switch (c) {
  case ' ':
  case '\n':
  case '\t':
    return 1;
  default:
    return 0;
  }
}

void number(int n) {
  if (n >= 10)
    number(n / 10);
  putchar('0' + n % 10);
}

int main(void) {
  int c, inside = 0;
  while ((c = getchar()) != EOF) {
    bytes++;
    if (c == '\n')
      lines++;
    if (blank(c))
      inside = 0;
    else if (!inside) {
      inside = 1;
      words++;
    }
  }
  number(lines);
  putchar(' ');
  number(words);
  putchar(' ');
  number(bytes);
  putchar('\n');
  return 0;
}
