/* Ranges: both ends of each are allowed, and a value beyond them is 5 with the tag. */
#include <math.h>
#include <stdio.h>
#include <string.h>

#include "host.h"

static void range(const order_bytes *order, uint32_t place, const char *what) {
  answers all = ask(order, 0, 0, 0);
  bool refused = order_refused(&all.order, 5, place) && row_refused(&all, 5, place);
  check(all.lent_kept && (place == 0 ? all.order.number == 0 && answers_agree(&all, 0, 0, 0) : refused), what);
}

static void date(uint16_t year, uint8_t month, uint8_t day, uint16_t rows, uint32_t place) {
  order_bytes order = place_order("Makkah", year, month, day, rows, 21.4225, 39.8262, 0);
  char what[64];
  snprintf(what, sizeof what, "%u-%02u-%02u, %u rows, place %u", year, month, day, rows, place);
  range(&order, place, what);
}

static void check_dates(void) {
  date(1900, 1, 1, 1, 0), date(1899, 12, 31, 1, 2), date(0, 1, 1, 1, 2);
  date(2199, 12, 31, 1, 0), date(2200, 1, 1, 1, 2), date(65535, 1, 1, 1, 2);
  date(2026, 13, 1, 1, 2), date(2026, 0, 1, 1, 2), date(2026, 1, 0, 1, 2), date(2026, 255, 255, 1, 2);
  static const uint8_t days[12] = {31, 28, 31, 30, 31, 30, 31, 31, 30, 31, 30, 31};
  for (uint8_t month = 1; month <= 12; month++) {
    date(2026, month, days[month - 1], 1, 0);
    date(2026, month, (uint8_t)(days[month - 1] + 1), 1, 2);
  }
  date(2024, 2, 29, 1, 0), date(2024, 2, 30, 1, 2), date(2000, 2, 29, 1, 0);
  date(1900, 2, 29, 1, 2), date(2100, 2, 29, 1, 2);
  date(2026, 4, 31, 0, 2), date(2026, 4, 30, 0, 3);
  date(2026, 4, 30, 250, 0), date(2026, 4, 30, 251, 3), date(2026, 4, 30, 255, 3);
  date(2199, 12, 31, 2, 3), date(2199, 4, 26, 250, 0), date(2199, 4, 27, 250, 3), date(2199, 4, 27, 249, 0);
}

/* Rows in two bytes: 1 to 400, also those that one byte could say, the high byte first. One byte says no more than 250. */
static void check_rows_in_two_bytes(void) {
  order_bytes good = good_order(), rest = without(&good, 3);
  for (uint32_t rows = 0; rows < 65536; rows += rows < 600 ? 1 : 251) {
    order_bytes order = rest;
    put_rows(&order, (uint16_t)rows, 2);
    katchidul_order read = katchidul_read_order(order.bytes, order.length);
    bool fits = 1 <= rows && rows <= KATCHIDUL_ROWS_MAX;
    check(fits ? read.number == 0 && read.rows == rows : order_refused(&read, 5, 3), "rows in two bytes");
  }
  order_bytes three = rest;
  put_rows(&three, 1, 3);
  katchidul_order read = katchidul_read_order(three.bytes, three.length);
  check(order_refused(&read, 2, (uint32_t)rest.length), "rows in three bytes");
  date(2198, 11, 27, 400, 0), date(2198, 11, 28, 400, 3), date(2198, 11, 28, 399, 0), date(2026, 1, 1, 401, 3);
}

/* The full order with one tag's float in place of its own. */
static void real(uint8_t tag, double value, bool allowed) {
  order_bytes full = full_order(), order = without(&full, tag);
  char what[64];
  put_float(&order, tag, value);
  snprintf(what, sizeof what, "tag %u is %.17g", tag, value);
  range(&order, allowed ? 0 : tag, what);
}

static void check_floats(void) {
  static const struct { uint8_t tag; double low, high; } ends[] = {{4, -90, 90}, {5, -180, 180}, {12, 0, 30}, {13, 0, 30}};
  for (size_t i = 0; i < sizeof ends / sizeof *ends; i++) {
    uint8_t tag = ends[i].tag;
    real(tag, ends[i].low, true), real(tag, nextafter(ends[i].low, -1000), false);
    real(tag, ends[i].high, true), real(tag, nextafter(ends[i].high, 1000), false);
    real(tag, INFINITY, false), real(tag, -INFINITY, false), real(tag, NAN, false), real(tag, -NAN, false);
    real(tag, -0.0, true), real(tag, 5e-324, true), real(tag, -1e300, false), real(tag, 1e300, false);
    order_bytes full = full_order(), order = without(&full, tag);
    put_bits(&order, tag, UINT64_C(0x7ff0000000000001));
    range(&order, tag, "a signalling NaN");
  }
}

static void check_small(void) {
  static const struct { uint8_t tag, low, high; } ends[] = {{6, 0, 12}, {7, 1, 2}, {8, 0, 2}, {9, 0, 2}, {10, 0, 2}, {15, 0, 1}, {17, 0, 1}};
  order_bytes full = full_order();
  char what[64];
  for (size_t i = 0; i < sizeof ends / sizeof *ends; i++) {
    for (unsigned value = 0; value < 256; value++) {
      order_bytes order = without(&full, ends[i].tag);
      put_small(&order, ends[i].tag, (uint8_t)value);
      snprintf(what, sizeof what, "tag %u is %u", ends[i].tag, value);
      range(&order, value >= ends[i].low && value <= ends[i].high ? 0 : ends[i].tag, what);
    }
  }
}

static void check_minutes(void) {
  static const int16_t values[] = {-32768, -721, -720, 0, 720, 721, 32767};
  order_bytes full = full_order(), rest = without(&full, 11), open = without(&full, 14);
  char what[64];
  for (int prayer = 0; prayer < 6; prayer++) {
    for (size_t i = 0; i < sizeof values / sizeof *values; i++) {
      int16_t minutes[6] = {0};
      order_bytes order = rest;
      minutes[prayer] = values[i];
      put_minutes(&order, minutes);
      snprintf(what, sizeof what, "minutes of prayer %d are %d", prayer + 1, values[i]);
      range(&order, values[i] >= -720 && values[i] <= 720 ? 0 : 11, what);
    }
  }
  static const uint16_t intervals[] = {0, 1, 1440, 1441, 65535};
  for (size_t i = 0; i < sizeof intervals / sizeof *intervals; i++) {
    order_bytes order = open;
    put_interval(&order, intervals[i]);
    range(&order, intervals[i] <= 1440 ? 0 : 14, "the Isha interval's ends");
  }
}

static void check_towns(void) {
  order_bytes full = full_order();
  char what[64];
  for (unsigned byte = 0; byte < 256; byte++) {
    order_bytes order = full;
    order.bytes[3 + byte % 6] = (uint8_t)byte;
    snprintf(what, sizeof what, "byte %u in a town", byte);
    range(&order, byte >= 32 && byte <= 126 ? 0 : 1, what);
  }
}

static void check_clock(void) {
  for (int minutes = -1000; minutes <= 1000; minutes++) {
    order_bytes order = good_order();
    char what[64];
    put_clock(&order, (int16_t)minutes);
    snprintf(what, sizeof what, "a clock of %d minutes", minutes);
    range(&order, minutes >= -840 && minutes <= 840 ? 0 : 16, what);
    if (minutes >= -840 && minutes <= 840) check(katchidul_read_order(order.bytes, order.length).clock == minutes, what);
  }
  for (int bit = 0; bit < 2; bit++) {
    order_bytes order = good_order();
    put_clock(&order, bit ? INT16_MAX : INT16_MIN);
    range(&order, 16, "an end of 16 bits");
  }
}

/* If two values are out of range, the lower tag is named, wherever its field is. */
static void check_rising(void) {
  order_bytes order = {0}, rest = place_order("Makkah", 2026, 13, 1, 0, 91, 181, 13);
  put_small(&order, 7, 3);
  for (size_t i = 0; i < rest.length; i++) put_byte(&order, rest.bytes[i]);
  range(&order, 2, "month 13 before all later tags");
  order = rest;
  order.bytes[3] = 31;
  range(&order, 1, "the town before month 13");
  order = (order_bytes){0};
  put_small(&order, 7, 3);
  rest = place_order("Makkah", 2026, 6, 21, 1, 91, 181, 0);
  for (size_t i = 0; i < rest.length; i++) put_byte(&order, rest.bytes[i]);
  range(&order, 4, "latitude before longitude and a madhab that stands first");
}

void check_ranges(void) {
  check_dates();
  check_rows_in_two_bytes();
  check_floats();
  check_small();
  check_minutes();
  check_clock();
  check_towns();
  check_rising();
}
