/* The hundredths of a second nearest to a double, in whole numbers of 128 bits, and five parts from a count: what the library must give. */
#ifndef EXACT_H
#define EXACT_H

#include <math.h>
#include <stdbool.h>
#include <stdint.h>
#include <string.h>

#include "katchidul.h"

#define IN_DEGREE 360000

/* One of the two coordinates: its tag, the most degrees, and the library's writer. */
typedef struct {
  uint8_t tag;
  uint32_t most;
  katchidul_map (*write)(double degrees);
} coordinate;

/* A half goes up: with x = digits / 2^places the count is the whole part of (2 * digits * 360,000 + 2^places) / 2^(places + 1). If x has
   more than 74 places, it is under 2^-21, and the count is 0. */
static inline uint64_t nearest(double x) {
  int exponent;
  uint64_t digits = (uint64_t)ldexp(frexp(fabs(x), &exponent), 53);
  int places = 53 - exponent;
  if (places > 74) return 0;
  return (uint64_t)(((unsigned __int128)digits * IN_DEGREE * 2 + ((unsigned __int128)1 << places)) >> (places + 1));
}

static inline katchidul_map form_of(int64_t count) {
  uint32_t size = (uint32_t)(count < 0 ? -count : count);
  return (katchidul_map){0, 0, count < 0, size / IN_DEGREE, size / 6000 % 60, size / 100 % 60, size % 100};
}

static inline bool same_form(katchidul_map got, katchidul_map wanted) { return memcmp(&got, &wanted, sizeof got) == 0; }

/* Whether the library writes x as it must. */
static inline bool written_right(const coordinate *which, double x) {
  if (!(fabs(x) <= which->most)) return same_form(which->write(x), (katchidul_map){KATCHIDUL_OUT_OF_RANGE, which->tag, 0, 0, 0, 0, 0});
  return same_form(which->write(x), form_of(x < 0 ? -(int64_t)nearest(x) : (int64_t)nearest(x)));
}

/* Random numbers, the same in every run. */
static inline uint64_t random_bits(void) {
  static uint64_t state = 20260621;
  state ^= state << 13, state ^= state >> 7, state ^= state << 17;
  return state;
}

#endif
