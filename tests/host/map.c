/* Coordinates as on the map: the writer compared with whole numbers of 128 bits, orders in either form with one another, and 15. */
#include <stdio.h>

#include "../map_form/exact.h"
#include "host.h"

static const coordinate latitude = {18, 90, katchidul_map_latitude}, longitude = {19, 180, katchidul_map_longitude};

static void written(const coordinate *which, double x) {
  char what[64];
  snprintf(what, sizeof what, "tag %u, the writer at %a", which->tag, x);
  check(written_right(which, x), what);
}

static void around(const coordinate *which, double x) {
  written(which, nextafter(x, -INFINITY)), written(which, x), written(which, nextafter(x, INFINITY));
}

static double any_float(void) {
  uint64_t bits = random_bits();
  double x;
  memcpy(&x, &bits, sizeof x);
  return x;
}

/* Ends and beyond, what is no number, halves and their neighbours, floats of every size. */
static void check_writer(const coordinate *which) {
  static const double some[] = {0.0, -0.0, 5e-324, -1e-9, 6.944444444444444e-6, 1.3888888888888889e-6, INFINITY, -INFINITY, NAN, 1e300};
  for (size_t i = 0; i < sizeof some / sizeof *some; i++) written(which, some[i]);
  around(which, which->most), around(which, -(double)which->most);
  for (int i = 0; i < 20000; i++) {
    double size = (double)(random_bits() >> 11) * 0x1p-53 * which->most, side = i % 2 ? -1 : 1;
    written(which, any_float());
    around(which, side * ldexp(size, -(int)(random_bits() % 40)));
    around(which, side * (floor(size * 64) + 0.5) / 64); /* j / 128 is a half if j is odd */
    around(which, side * (floor(size * IN_DEGREE) + 0.5) / IN_DEGREE);
  }
}

/* The good order with one coordinate as on the map, and its other fields. */
static order_bytes on_map(const coordinate *which, const uint8_t parts[5]) {
  order_bytes good = good_order(), order = without(&good, (uint8_t)(which->tag - 14));
  put_map(&order, which->tag, parts);
  return order;
}

static double read_by(const coordinate *which, const katchidul_order *read) { return which->tag == 18 ? read->latitude : read->longitude; }

/* What is read is the quotient, rounded once; what was read is written back, a zero with sign 0. */
static void there_and_back(const coordinate *which, uint8_t sign, uint32_t size) {
  katchidul_map form = form_of(size);
  uint8_t parts[5] = {sign, (uint8_t)form.degrees, (uint8_t)form.minutes, (uint8_t)form.seconds, (uint8_t)form.hundredths};
  order_bytes order = on_map(which, parts);
  katchidul_order read = katchidul_read_order(order.bytes, order.length);
  double x = read_by(which, &read), wanted = (double)size / IN_DEGREE;
  form.sign = size > 0 && sign;
  check(read.number == 0 && x == (form.sign ? -wanted : wanted) && !(size == 0 && signbit(x)), "a coordinate as on the map is read");
  check(same_form(which->write(x), form), "and written back");
}

static void refused_parts(const coordinate *which, const uint8_t parts[5]) {
  order_bytes order = on_map(which, parts);
  answers all = ask(&order, 0, 0, 0);
  check(all.lent_kept && order_refused(&all.order, 5, which->tag) && row_refused(&all, 5, which->tag), "a part out of its limit");
}

static void check_reader(const coordinate *which) {
  uint8_t most = (uint8_t)which->most;
  for (uint8_t sign = 0; sign < 2; sign++) {
    there_and_back(which, sign, 0), there_and_back(which, sign, 1), there_and_back(which, sign, which->most * IN_DEGREE);
    for (int i = 0; i < 20000; i++) there_and_back(which, sign, (uint32_t)(random_bits() % (which->most * IN_DEGREE)));
  }
  const uint8_t out[][5] = {{2, 0, 0, 0, 0}, {255, 1, 2, 3, 4}, {0, 1, 60, 0, 0}, {0, 1, 0, 60, 0}, {1, 1, 0, 0, 100}, {0, most, 0, 0, 1}, {1, most, 0, 0, 1},
                            {0, (uint8_t)(most + 1), 0, 0, 0}, {0, 255, 255, 255, 255}};
  for (size_t i = 0; i < sizeof out / sizeof *out; i++) refused_parts(which, out[i]);
}

/* Every answer on two orders is the same but for the offset of the town. */
static void check_either_way(void) {
  for (int i = 0; i < 2000; i++) {
    int64_t north = (int64_t)(random_bits() % (180 * IN_DEGREE + 1)) - 90 * IN_DEGREE, east = (int64_t)(random_bits() % (360 * IN_DEGREE + 1)) - 180 * IN_DEGREE;
    katchidul_map forms[2] = {form_of(north), form_of(east)};
    uint8_t method = (uint8_t)(i % 13), month = (uint8_t)(1 + i % 12);
    order_bytes floats = place_order("Either", 2026, month, 15, 10, (double)north / IN_DEGREE, (double)east / IN_DEGREE, method), maps = floats;
    maps = without(&maps, 4), maps = without(&maps, 5), maps = without(&maps, 1);
    for (int k = 0; k < 2; k++) {
      const katchidul_map *form = &forms[k];
      put_map(&maps, (uint8_t)(18 + k), (uint8_t[]){(uint8_t)form->sign, (uint8_t)form->degrees, (uint8_t)form->minutes, (uint8_t)form->seconds, (uint8_t)form->hundredths});
    }
    put_town(&maps, "Either");
    int64_t noon = (days_to(2026, month, 15) + i % 10) * 86400 + 43200;
    answers first = ask(&floats, (uint32_t)(i % 10), noon, 0), second = ask(&maps, (uint32_t)(i % 10), noon, 0);
    check(second.order.number == 0 && second.order.town_at != first.order.town_at, "both are read");
    second.order.town_at = first.order.town_at;
    check(memcmp(&first, &second, sizeof first) == 0, "a place sent either way has the same answers");
  }
}

static void judged(const order_bytes *order, uint32_t number, uint32_t place, const char *what) {
  answers all = ask(order, 0, 0, 0);
  check(all.lent_kept && order_refused(&all.order, number, place) && row_refused(&all, number, place), what);
}

/* 15: after missing tags, before ranges, latitude first, for any values of the two. */
static void check_both_forms(void) {
  static const uint8_t bad[5] = {2, 99, 99, 99, 99}, far[5] = {0, 91, 0, 0, 0};
  order_bytes good = good_order(), both = good, wild = place_order("Makkah", 2026, 13, 21, 10, NAN, NAN, 13), lone = without(&good, 4);
  put_map(&both, 19, bad);
  judged(&both, KATCHIDUL_BOTH_FORMS, 19, "both forms of the longitude");
  put_map(&both, 18, bad);
  judged(&both, KATCHIDUL_BOTH_FORMS, 18, "of the latitude first");
  put_map(&wild, 18, bad);
  judged(&wild, KATCHIDUL_BOTH_FORMS, 18, "before every range");
  order_bytes lacking = without(&wild, 6);
  judged(&lacking, KATCHIDUL_TAG_MISSING, 6, "after a missing method");
  judged(&lone, KATCHIDUL_TAG_MISSING, 4, "no latitude in either form");
  put_map(&lone, 19, bad);
  judged(&lone, KATCHIDUL_TAG_MISSING, 4, "a missing latitude before both forms of the longitude");
  order_bytes turn = place_order("Makkah", 2026, 6, 21, 10, 0, 181, 0);
  turn = without(&turn, 4);
  put_map(&turn, 18, far);
  judged(&turn, KATCHIDUL_OUT_OF_RANGE, 5, "tag 5 in its turn before tag 18");
}

void check_map(void) {
  check_writer(&latitude), check_writer(&longitude);
  check_reader(&latitude), check_reader(&longitude);
  check_either_way();
  check_both_forms();
}
