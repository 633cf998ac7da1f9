/* What an accepted order gives: the town's part, each field, and the defaults of missing tags. */
#include <stdio.h>
#include <string.h>

#include "host.h"

static bool same_bits(double left, double right) { return memcmp(&left, &right, sizeof left) == 0; }

static katchidul_order read_kept(const order_bytes *order, const char *what) {
  answers all = ask(order, 0, 0, 0);
  check(all.lent_kept && all.order.number == 0 && all.order.place == 0, what);
  return all.order;
}

static void check_full(void) {
  static const int32_t minutes[6] = {-720, -1, 0, 1, 2, 720};
  order_bytes order = full_order();
  katchidul_order read = read_kept(&order, "the full order is read");
  check(read.town_at == 3 && read.town_length == 6, "the full order's town");
  check(read.year == 2026 && read.month == 6 && read.day == 21 && read.rows == 10, "the full order's date and rows");
  check(same_bits(read.latitude, 21.4225) && same_bits(read.longitude, 39.8262), "the full order's place");
  check(read.method == 0 && read.madhab == 2 && read.high_latitude_rule == 1, "the full order's method, madhab and rule");
  check(read.rounding == 2 && read.shafaq == 2 && read.isha_interval == 75, "the full order's rounding, shafaq, interval");
  check(same_bits(read.fajr_angle, 19.5) && same_bits(read.isha_angle, 16.25), "the full order's angles");
  check(memcmp(read.minutes, minutes, sizeof minutes) == 0, "the full order's minutes");
  check(read.carry == KATCHIDUL_CARRY_CARRIES && read.southern == KATCHIDUL_SOUTHERN_STARTS_AGAIN, "the full order's rules");
  check(read.clock == -345, "the full order's clock");
  check(read.ramadan == 0 && read.imsak == 0 && read.shift == 0, "no Ramadan sheet");
}

/* By Method::parameters; tags 7 to 17 are missing. */
static void check_methods(void) {
  static const struct { double fajr, isha; uint32_t interval, rounding; } methods[13] = {
      {18, 17, 0, 0},  {19.5, 17.5, 0, 0}, {18, 18, 0, 0},   {18.5, 0, 90, 0}, {18.2, 18.2, 0, 0}, {18, 18, 0, 0}, {15, 15, 0, 0},
      {18, 17.5, 0, 0}, {18, 0, 90, 0},    {20, 18, 0, 1},   {17.7, 14, 0, 0}, {18, 17, 0, 0},     {0, 0, 0, 0}};
  static const int32_t none[6] = {0};
  for (uint8_t method = 0; method < 13; method++) {
    char what[64];
    snprintf(what, sizeof what, "the defaults of method %u", method);
    order_bytes order = place_order("A", 2026, 1, 1, 250, -33.5, -70.25, method);
    katchidul_order read = read_kept(&order, what);
    check(read.method == method && same_bits(read.fajr_angle, methods[method].fajr) &&
              same_bits(read.isha_angle, methods[method].isha) && read.isha_interval == methods[method].interval &&
              read.rounding == methods[method].rounding && read.madhab == 1 && read.high_latitude_rule == 0 &&
              read.shafaq == 0 && read.carry == 0 && read.southern == 0 && read.clock == 0 && read.rows == 250 &&
              memcmp(read.minutes, none, sizeof none) == 0,
          what);
  }
}

static void check_towns(void) {
  char town[41] = {0};
  for (uint32_t length = 1; length <= 40; length++) {
    memset(town, 'a', length);
    order_bytes whole = place_order(town, 2026, 1, 1, 1, 0, 0, 0), order = without(&whole, 1);
    uint32_t at = (uint32_t)order.length + 3;
    put_town(&order, town);
    put_small(&order, 7, 2);
    katchidul_order first = read_kept(&whole, "a town in front"), last = read_kept(&order, "a town behind");
    check(first.town_at == 3 && first.town_length == length, "the town's part in front");
    check(last.town_at == at && last.town_length == length, "the town's part behind the other fields");
  }
}

static void check_zeros(void) {
  order_bytes order = place_order("Null", 2026, 1, 1, 1, -0.0, -0.0, 0);
  put_float(&order, 12, -0.0);
  put_float(&order, 13, -0.0);
  katchidul_order read = read_kept(&order, "-0.0 is allowed");
  check(same_bits(read.latitude, 0.0) && same_bits(read.longitude, 0.0), "-0.0 is read as 0.0 in a place");
  check(same_bits(read.fajr_angle, 0.0) && same_bits(read.isha_angle, 0.0), "-0.0 is read as 0.0 in an angle");
}

/* Tag 14 leaves the Isha angle, and tag 13 the interval. */
static void check_interval(void) {
  order_bytes order = place_order("A", 2026, 1, 1, 1, 20, 40, 0), other = place_order("A", 2026, 1, 1, 1, 20, 40, 3);
  put_interval(&order, 1440);
  put_float(&other, 13, 12.5);
  katchidul_order read = read_kept(&order, "an interval"), second = read_kept(&other, "an Isha angle");
  check(read.isha_interval == 1440 && same_bits(read.isha_angle, 17), "tag 14 leaves the Isha angle");
  check(second.isha_interval == 90 && same_bits(second.isha_angle, 12.5), "tag 13 leaves the interval");
}

void check_records(void) {
  check_full();
  check_methods();
  check_towns();
  check_zeros();
  check_interval();
}
