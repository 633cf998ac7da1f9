/* Every latitude and every longitude that the map form can say, there and back: its five bytes in an order, the double that is read from
   them, and the five numbers that are written for it; then doubles of all sizes against whole numbers of 128 bits. */
#include <stdio.h>
#include <stdlib.h>

#include "exact.h"

static const coordinate latitude = {18, 90, katchidul_map_latitude}, longitude = {19, 180, katchidul_map_longitude};

/* Town P, 2026-06-21, one row, method 0, then the other coordinate as a double, then the one that is tried. */
static uint8_t order[] = {1, 0, 1, 80, 2, 0, 4, 7, 234, 6, 21, 3, 0, 1, 1, 6, 0, 1, 0, 0, 0, 8, 0, 0, 0, 0, 0, 0, 0, 0, 0, 0, 5, 0, 0, 0, 0, 0};

#define OTHER 19
#define TRIED 30

static bool there_and_back(const coordinate *which, int64_t count) {
  katchidul_map form = form_of(count);
  uint8_t parts[5] = {(uint8_t)form.sign, (uint8_t)form.degrees, (uint8_t)form.minutes, (uint8_t)form.seconds, (uint8_t)form.hundredths};
  memcpy(order + TRIED + 3, parts, sizeof parts);
  katchidul_order read = katchidul_read_order(order, sizeof order);
  double x = which == &latitude ? read.latitude : read.longitude, wanted = (double)count / IN_DEGREE;
  return read.number == 0 && memcmp(&x, &wanted, sizeof x) == 0 && same_form(which->write(x), form);
}

static uint64_t every(const coordinate *which, const char *name) {
  int64_t most = (int64_t)which->most * IN_DEGREE;
  uint64_t failed = 0;
  order[TRIED] = which->tag;
  order[OTHER] = which == &latitude ? 5 : 4;
  for (int64_t count = -most; count <= most; count++) {
    if (there_and_back(which, count)) continue;
    if (failed++ < 10) printf("%s %lld hundredths\n", name, (long long)count);
  }
  printf("%s: %lld there and back, %llu failed\n", name, (long long)(2 * most + 1), (unsigned long long)failed);
  return failed;
}

/* Any bit pattern; a number in range of any size; a half, and its neighbours. */
static double some_double(const coordinate *which, uint64_t i) {
  uint64_t bits = random_bits();
  double x, size = (double)(bits >> 11) * 0x1p-53 * which->most;
  switch (i % 4) {
    case 0: memcpy(&x, &bits, sizeof x); return x;
    case 1: return ldexp(bits & 1 ? -size : size, -(int)(bits >> 1 & 31));
    case 2: x = (floor(size * 64) + 0.5) / 64; break;
    default: x = (floor(size * IN_DEGREE) + 0.5) / IN_DEGREE;
  }
  x = bits & 2 ? -x : x;
  return bits & 4 ? x : nextafter(x, bits & 8 ? 0.0 : copysign(1e3, x));
}

static uint64_t random_ones(uint64_t count) {
  uint64_t failed = 0;
  for (uint64_t i = 0; i < count; i++) {
    const coordinate *which = i / 4 % 2 ? &longitude : &latitude;
    double x = some_double(which, i);
    if (written_right(which, x)) continue;
    if (failed++ < 10) printf("tag %u: %a\n", which->tag, x);
  }
  printf("doubles: %llu written, %llu failed\n", (unsigned long long)count, (unsigned long long)failed);
  return failed;
}

int main(int count, char **arguments) {
  uint64_t failed = random_ones(count > 1 ? strtoull(arguments[1], NULL, 10) : 10000000);
  failed += every(&latitude, "latitudes");
  failed += every(&longitude, "longitudes");
  return failed == 0 ? 0 : 1;
}
