#include <stdio.h>

/* A state machine that takes the comments out of a C text; one that stays open ends it with status 1. */

int state;

void code(int byte) {
  if (byte == '/') {
    state = 1;
    return;
  }
  putchar(byte);
  if (byte == '"')
    state = 4;
  if (byte == '\'')
    state = 6;
}

void feed(int byte) {
  switch (state) {
  case 0:
    code(byte);
    break;
  case 1:
    if (byte == '*')
      state = 2;
    else if (byte == '/')
      state = 8;
    else {
      putchar('/');
      state = 0;
      code(byte);
    }
    break;
  case 2:
    if (byte == '*')
      state = 3;
    break;
  case 3:
    if (byte == '/') {
      putchar(' ');
      state = 0;
    } else if (byte != '*')
      state = 2;
    break;
  case 4:
  case 6:
    putchar(byte);
    if (byte == '\\')
      state++;
    else if (byte == (state == 4 ? '"' : '\''))
      state = 0;
    break;
  case 5:
  case 7:
    putchar(byte);
    state--;
    break;
  default:
    if (byte == '\n') {
      putchar(byte);
      state = 0;
    }
  }
}

int main(void) {
  int byte;
  while ((byte = getchar()) != EOF)
    feed(byte);
  if (state == 1)
    putchar('/');
  return state == 2 || state == 3;
}
