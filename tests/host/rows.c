/* A row's line in a lent buffer: 9 first, buffers of every size, the line's bytes, and that no refusal writes a byte. */
#include <stdio.h>
#include <string.h>

#include "host.h"

typedef struct {
  order_bytes order;
  uint32_t row, number, place;
} refused_row;

static void is_kept(const order_bytes *order, uint32_t row, size_t size, uint32_t number, uint32_t place, const char *what) {
  char whole[128];
  snprintf(whole, sizeof whole, "%s: %zu bytes, row %u", what, size, row);
  check(row_unwritten(order, row, size, number, place), whole);
}

static order_bytes followed_by(order_bytes order, size_t length, const uint8_t *bytes) {
  for (size_t i = 0; i < length; i++) put_byte(&order, bytes[i]);
  return order;
}

/* A transit that rounds to midnight: the first row that gives 6, on whichever day. */
static refused_row no_transit(void) {
  refused_row found = {place_order("A", 2026, 3, 1, 250, 0, -179.5, 0), 0, 6, 0};
  for (; found.row < 250; found.row++) {
    answers all = ask(&found.order, found.row, 0, 0);
    found.place = all.day.place;
    if (all.day.number == 6) break;
  }
  check(found.row < 250, "a row without a transit is found");
  return found;
}

/* Each number from 1 to 8, and a row beyond: no byte changes in a buffer that is large enough, and 9 comes first in one that is not. */
static void check_refused(void) {
  const order_bytes good = good_order();
  const refused_row rows[] = {
      {followed_by(good, 1, (const uint8_t[]){99}), 0, 1, 46},
      {followed_by(good, 3, (const uint8_t[]){99, 0, 0}), 0, 2, 46},
      {followed_by(good, 4, (const uint8_t[]){1, 0, 1, 65}), 0, 3, 46},
      {{0}, 0, 4, 1},
      {place_order("A", 2026, 13, 21, 1, 0, 0, 0), 0, 5, 2},
      {good, 10, 5, 3},
      {good, UINT32_MAX, 5, 3},
      no_transit(),
      {place_order("Pole", 2026, 6, 21, 1, 90, 0, 0), 0, 7, 0},
      {place_order("Sea", 2026, 6, 21, 1, 40, -66.7, 0), 0, 8, 2},
  };
  static const size_t sizes[] = {119, 120, 200, BUFFER_MOST};
  for (size_t i = 0; i < sizeof rows / sizeof *rows; i++) {
    const refused_row *it = &rows[i];
    char what[32];
    snprintf(what, sizeof what, "refused %u place %u", it->number, it->place);
    for (size_t size = 0; size < sizeof sizes / sizeof *sizes; size++)
      is_kept(&it->order, it->row, sizes[size], it->number, it->place, what);
    for (size_t size = 0; size < ROW_LENGTH; size++) is_kept(&it->order, it->row, size, 9, 0, "9 before the order");
  }
}

static void check_short(void) {
  order_bytes good = good_order(), full = full_order();
  for (size_t size = 0; size < ROW_LENGTH; size++) {
    is_kept(&good, 0, size, 9, 0, "a good order");
    is_kept(&full, 9, size, 9, 0, "the full order");
  }
}

static void check_written(const order_bytes *order, const char *what) {
  katchidul_order read = katchidul_read_order(order->bytes, order->length);
  for (uint32_t row = 0; row < 10; row++) {
    katchidul_day day = katchidul_work_day(order->bytes, order->length, row);
    row_line line = line_of(&read, row, &day);
    check(day.number == 0, what);
    for (size_t size = ROW_LENGTH; size <= BUFFER_MOST; size += size < 200 ? 1 : 487) {
      char whole[96];
      snprintf(whole, sizeof whole, "%s: %zu bytes, row %u", what, size, row);
      check(row_written(order, row, size, &line), whole);
    }
  }
}

/* A line that the crate gave (examples/durham-june.sheet): the library and line.c might be wrong alike. */
static void check_known(void) {
  order_bytes order = place_order("Durham", 2026, 6, 1, 30, 54.7753, -1.5849, 0);
  static const row_line known = {
      "2026-06-01 +0T00:05:00 +0T03:36:00 +0T12:05:00 +0T16:31:00 +0T20:33:00 +1T00:04:00 +0T22:19:00 +0T22:54:00 +1T00:04:30\n",
      ROW_LENGTH};
  check(row_written(&order, 0, ROW_LENGTH, &known), "Durham's first row");
}

/* The full order's Fajr is 720 minutes early. */
static void check_days_before(void) {
  order_bytes order = full_order();
  katchidul_order read = katchidul_read_order(order.bytes, order.length);
  katchidul_day day = katchidul_work_day(order.bytes, order.length, 0);
  row_line line = line_of(&read, 0, &day);
  check(memcmp(line.text, "2026-06-21 -1T", 14) == 0, "12 hours before Fajr is the day before");
}

void check_lines(void) {
  order_bytes good = good_order(), full = full_order(), before = place_order("A", 1967, 12, 25, 10, 51.5, -0.125, 5);
  order_bytes leap = place_order("A", 2000, 2, 25, 10, 51.5, -0.125, 5), common = place_order("A", 2100, 2, 25, 10, -33, 151, 3);
  check_short();
  check_refused();
  check_written(&good, "the good order's row");
  check_written(&full, "the full order's row");
  check_written(&before, "a row before 1970");
  check_written(&leap, "a row in a leap year");
  check_written(&common, "a row in 2100");
  check_known();
  check_days_before();
}
