/* Names of six letters that a table of names without a secret would put into one place: their hash, folded to 32 bits, has the tag 1 of
   eight bits and a start within a window. The hash is that of the toolchain's library: `sip`, SipHash-1-3 with both keys 0, or `fold`,
   which a table has if nothing else is asked for.

   hash_search HASH COUNT MASK WINDOW */
#include <stdint.h>
#include <stdio.h>
#include <stdlib.h>
#include <string.h>

#define TURN(x, b) (((x) << (b)) | ((x) >> (64 - (b))))
#define ROUND                                                                                                                              \
  v0 += v1, v2 += v3, v1 = TURN(v1, 13) ^ v0, v3 = TURN(v3, 16) ^ v2, v0 = TURN(v0, 32), v2 += v1, v0 += v3, v1 = TURN(v1, 17) ^ v2,        \
    v3 = TURN(v3, 21) ^ v0, v2 = TURN(v2, 32)

static const char letters[] = "abcdefghijklmnopqrstuvwxyzABCDEFGHIJKLMNOPQRSTUVWXYZ0123456789_";
enum { ALL = 63, FIRST = 52, LENGTH = 6 };
static uint64_t ends[ALL * ALL];
static uint32_t found[ALL * ALL];

/* Of six letters in the low bytes of a word. A text is hashed with a byte 255 after it. */
static inline uint64_t sip(uint64_t name) {
  uint64_t v0 = 0x736f6d6570736575, v1 = 0x646f72616e646f6d, v2 = 0x6c7967656e657261, v3 = 0x7465646279746573;
  uint64_t word = name | 0xffULL << 48 | (LENGTH + 1ULL) << 56;
  v3 ^= word, ROUND, v0 ^= word, v2 ^= 0xff, ROUND, ROUND, ROUND;
  return v0 ^ v1 ^ v2 ^ v3;
}

static inline uint64_t multiplied(uint64_t a, uint64_t b) {
  unsigned __int128 product = (unsigned __int128)a * b;
  return (uint64_t)product ^ (uint64_t)(product >> 64);
}

static inline uint64_t fold(uint64_t name) {
  const uint64_t start = 0x243f6a8885a308d3, multiplier = 0x9e3779b97f4a7c15;
  uint64_t word = (name & 0xffffffff) | name >> 16 << 32;
  return multiplied(multiplied(start ^ word, multiplier ^ 2 * LENGTH) ^ 0xffffff, multiplier ^ 2);
}

int main(int count, char **words) {
  if (count != 5) return 2;
  int is_fold = !strcmp(words[1], "fold");
  long wanted = atol(words[2]);
  uint32_t mask = strtoul(words[3], 0, 0), window = strtoul(words[4], 0, 0);
  for (int i = 0; i < ALL * ALL; i++) ends[i] = (uint64_t)letters[i / ALL] << 32 | (uint64_t)letters[i % ALL] << 40;
  for (int start = 0; start < FIRST * ALL * ALL * ALL; start++) {
    int a = start / (ALL * ALL * ALL), b = start / (ALL * ALL) % ALL, c = start / ALL % ALL, d = start % ALL;
    uint64_t begin = letters[a] | (uint64_t)letters[b] << 8 | (uint64_t)letters[c] << 16 | (uint64_t)letters[d] << 24;
    for (int i = 0; i < ALL * ALL; i++) {
      uint64_t hash = is_fold ? fold(begin | ends[i]) : sip(begin | ends[i]);
      found[i] = (uint32_t)(hash ^ (hash >> 32));
    }
    for (int i = 0; i < ALL * ALL; i++) {
      if (found[i] >> 25 || (found[i] & mask) >= window) continue;
      printf("%c%c%c%c%c%c\n", letters[a], letters[b], letters[c], letters[d], letters[i / ALL], letters[i % ALL]);
      if (--wanted == 0) return 0;
    }
  }
  return 1;
}
