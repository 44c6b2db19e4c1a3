#include <stdio.h>
#include <stdlib.h>

/* Adds, subtracts, multiplies and divides whole numbers, a term a line, with parentheses; it ends with status 2 at what is no term. */

int next;

void skip(void) {
  do
    next = getchar();
  while (next == ' ');
}

void refuse(void) {
  putchar('?');
  putchar('\n');
  exit(2);
}

long sum(void);

long factor(void) {
  long n = 0;
  if (next == '-') {
    skip();
    return -factor();
  }
  if (next == '(') {
    skip();
    n = sum();
    if (next != ')')
      refuse();
    skip();
    return n;
  }
  if (next < '0' || next > '9')
    refuse();
  while (next >= '0' && next <= '9') {
    n = 10 * n + (next - '0');
    skip();
  }
  return n;
}

long product(void) {
  long n = factor();
  while (next == '*' || next == '/') {
    int operator = next;
    skip();
    if (operator == '*')
      n *= factor();
    else
      n /= factor();
  }
  return n;
}

long sum(void) {
  long n = product();
  while (next == '+' || next == '-') {
    int operator = next;
    skip();
    if (operator == '+')
      n += product();
    else
      n -= product();
  }
  return n;
}

void print(long n) {
  if (n < 0) {
    putchar('-');
    if (n < -9)
      print(-(n / 10));
    putchar('0' - n % 10);
    return;
  }
  if (n >= 10)
    print(n / 10);
  putchar('0' + n % 10);
}

int main(void) {
  skip();
  while (next != EOF) {
    print(sum());
    putchar('\n');
    if (next != '\n' && next != EOF)
      refuse();
    if (next == '\n')
      skip();
  }
  return 0;
}
