/* The floating-point environment. The header's question tells every change of it that could change a result. The calls leave it as it is.
   When it is restored, the results are right again. */
#include <fenv.h>
#include <stdio.h>
#include <xmmintrin.h>

#include "host.h"

#define DEFAULT_CONTROL 0x1f80u
#define FLAGS 0x3fu /* what has happened, and no part of how to compute */
#define SUBNORMALS_TAKEN_AS_ZERO 0x40u

static int told(uint32_t control) {
  uint32_t before = _mm_getcsr();
  _mm_setcsr(control);
  int answer = katchidul_environment_is_default();
  _mm_setcsr(before);
  return answer;
}

/* Bit 6 takes subnormals as zero, 7 to 12 mask the exceptions, 13 and 14 are the rounding, 15 makes subnormal results zero. */
static void check_every_bit(void) {
  char what[64];
  check(katchidul_environment_is_default() == 1, "a program starts with the default environment");
  check(told(DEFAULT_CONTROL) == 1 && told(DEFAULT_CONTROL | FLAGS) == 1, "what has happened is no change of the environment");
  for (unsigned bit = 6; bit < 16; bit++) {
    snprintf(what, sizeof what, "bit %u of MXCSR is told", bit);
    check(told(DEFAULT_CONTROL ^ (1u << bit)) == 0, what);
  }
}

static void check_rounding(void) {
  static const int modes[] = {FE_UPWARD, FE_DOWNWARD, FE_TOWARDZERO};
  for (size_t i = 0; i < sizeof modes / sizeof *modes; i++) {
    bool set = fesetround(modes[i]) == 0;
    int answer = katchidul_environment_is_default();
    fesetround(FE_TONEAREST);
    check(set && answer == 0, "another rounding by fesetround is told");
    check(katchidul_environment_is_default() == 1, "the rounding is restored");
  }
}

/* The header's own example: the smallest number below 0 as Fajr's angle. */
static void check_subnormal(void) {
  order_bytes order = good_order();
  put_bits(&order, 12, UINT64_C(0x8000000000000001));
  uint32_t before = _mm_getcsr();
  katchidul_order right = katchidul_read_order(order.bytes, order.length);
  _mm_setcsr(before | SUBNORMALS_TAKEN_AS_ZERO);
  katchidul_order wrong = katchidul_read_order(order.bytes, order.length);
  _mm_setcsr(before);
  katchidul_order again = katchidul_read_order(order.bytes, order.length);
  check(order_refused(&right, 5, 12), "-5e-324 is no Fajr angle");
  check(wrong.number == 0, "where subnormals are taken as zero, -5e-324 is accepted, as the header warns");
  check(order_refused(&again, 5, 12), "-5e-324 is refused again");
}

static void check_kept(void) {
  order_bytes orders[] = {good_order(), full_order(), place_order("Pole", 2026, 6, 21, 1, 90, 0, 0), {0}};
  for (size_t i = 0; i < sizeof orders / sizeof *orders; i++) {
    uint32_t before = _mm_getcsr() & ~FLAGS;
    ask(&orders[i], 0, 0, 0);
    check((_mm_getcsr() & ~FLAGS) == before, "the calls leave the environment as it is");
  }
}

void check_environment(void) {
  check_every_bit();
  check_rounding();
  check_subnormal();
  check_kept();
}
