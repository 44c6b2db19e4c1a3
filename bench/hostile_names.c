/* Prints so many names whose hashes agree in their low bits, so that a table of names keeps them all in one place.
 *
 * Usage: hostile_names NAMES BITS
 *
 * The hash is that of the kit's default hasher, whose seed is fixed: the length as eight bytes, and then each byte.
 */
#include <stdint.h>
#include <stdio.h>
#include <stdlib.h>

enum { LENGTH = 8, LETTERS = 26 };

static uint64_t folded(uint64_t a, uint64_t b) {
  unsigned __int128 product = (unsigned __int128)a * b;
  return (uint64_t)product ^ (uint64_t)(product >> 64);
}

static const uint64_t multiplier = 0x9e3779b97f4a7c15u;

static uint64_t with_byte(uint64_t state, uint64_t byte) {
  return folded(state ^ (byte | byte << 8 | byte << 16), multiplier ^ 2);
}

static uint64_t with_length(uint64_t length) {
  return folded(0x243f6a8885a308d3u ^ length, multiplier ^ 16);
}

static long left;
static uint64_t mask;
static char name[LENGTH + 1];

static void extend(uint64_t state, int at) {
  for (int k = 0; k < LETTERS && left > 0; k++) {
    name[at] = 'a' + k;
    uint64_t next = with_byte(state, (uint64_t)name[at]);
    if (at + 1 < LENGTH) {
      extend(next, at + 1);
    } else if ((next & mask) == 0) {
      puts(name);
      left--;
    }
  }
}

int main(int count, char **words) {
  if (count != 3) return 2;
  left = atol(words[1]);
  mask = ((uint64_t)1 << atoi(words[2])) - 1;
  extend(with_length(LENGTH), 0);
  return 0;
}
