/* Refusals of an order before its values are looked at: 1 to 4, with their places, and the order in which they are found. */
#include <stdio.h>

#include "host.h"

#define GOOD_LENGTH 46

static void refused(const order_bytes *order, uint32_t number, uint32_t place, const char *what) {
  answers all = ask(order, 0, 0, 0);
  check(all.lent_kept && order_refused(&all.order, number, place) && row_refused(&all, number, place), what);
}

static order_bytes raw(size_t length, const uint8_t *bytes) {
  order_bytes order = {0};
  for (size_t i = 0; i < length; i++) put_byte(&order, bytes[i]);
  return order;
}

/* The bytes alone, and after a good order. */
static void bytes_refused(size_t length, const uint8_t *bytes, uint32_t alone, uint32_t after, const char *what) {
  order_bytes order = raw(length, bytes), longer = good_order();
  refused(&order, alone, 0, what);
  for (size_t i = 0; i < length; i++) put_byte(&longer, bytes[i]);
  refused(&longer, after, GOOD_LENGTH, what);
}

static void check_cut_fields(void) {
  bytes_refused(2, (const uint8_t[]){1, 0}, 1, 1, "the header 1, 0 is cut");
  bytes_refused(1, (const uint8_t[]){99}, 1, 1, "the byte 99 alone is a cut header");
  bytes_refused(1, (const uint8_t[]){7}, 1, 1, "the byte 7 alone is a cut header");
  bytes_refused(3, (const uint8_t[]){99, 0, 0}, 2, 2, "tag 99, length 0");
  bytes_refused(3, (const uint8_t[]){0, 0, 1}, 2, 2, "tag 0");
  bytes_refused(3, (const uint8_t[]){255, 255, 255}, 2, 2, "tag 255, cut too");
  bytes_refused(3, (const uint8_t[]){1, 0, 0}, 2, 3, "1, 0, 0: a town of no bytes, or the town again");
  bytes_refused(3, (const uint8_t[]){7, 0, 2}, 2, 2, "7, 0, 2: a wrong length before a cut value");
  bytes_refused(3, (const uint8_t[]){7, 1, 1}, 2, 2, "7, 1, 1: the length's high byte counts");
  bytes_refused(3, (const uint8_t[]){7, 0, 1}, 1, 1, "7, 0, 1: a cut value");
  bytes_refused(4, (const uint8_t[]){1, 0, 40, 65}, 1, 3, "a cut town, or the town again");
  bytes_refused(10, (const uint8_t[]){12, 0, 8, 0, 0, 0, 0, 0, 0, 0}, 1, 1, "a float cut by one byte");
  order_bytes whole = good_order();
  for (size_t length = 43; length < GOOD_LENGTH; length++) {
    order_bytes cut = raw(length, whole.bytes);
    refused(&cut, 1, 42, "a good order cut in its last field");
  }
}

static void check_sizes(void) {
  order_bytes order = full_order(), bare = {0};
  uint32_t end = (uint32_t)order.length;
  while (order.length < 1024) put_byte(&order, 0);
  refused(&order, 2, end, "1,024 bytes are read");
  put_byte(&order, 0);
  refused(&order, 1, 0, "1,025 bytes are too many");
  while (bare.length < 1025) put_byte(&bare, 99);
  refused(&bare, 1, 0, "1,025 bytes, before an unknown tag");
  order.length = ORDER_ROOM;
  refused(&order, 1, 0, "2,048 bytes");
}

static void check_lengths(void) {
  static const struct { uint8_t shortest, longest; } lengths[LAST_TAG + 1] = {{0, 0}, {1, 40}, {4, 4}, {1, 2}, {8, 8}, {8, 8}, {1, 1}, {1, 1},
                                                                    {1, 1}, {1, 1}, {1, 1}, {12, 12}, {8, 8}, {8, 8}, {2, 2}, {1, 1}, {2, 2},
                                                                    {1, 1}, {5, 5}, {5, 5}, {2, 2}};
  order_bytes full = full_order();
  char what[64];
  for (uint8_t tag = 1; tag <= LAST_TAG; tag++) {
    for (int way = 0; way < 3 && lengths[tag].longest != 0; way++) {
      order_bytes order = without(&full, tag);
      uint32_t at = (uint32_t)order.length;
      unsigned shortest = lengths[tag].shortest, wrong = way == 0 ? 256 + shortest : way == 1 ? shortest - 1 : lengths[tag].longest + 1u;
      put_header(&order, tag, (uint16_t)wrong);
      for (unsigned i = 0; i < wrong; i++) put_byte(&order, 65);
      snprintf(what, sizeof what, "tag %u of %u bytes", tag, wrong);
      refused(&order, 2, at, what);
    }
  }
}

static void check_repeats_and_missing(void) {
  order_bytes full = full_order(), empty = {0};
  char what[64];
  refused(&empty, 4, 1, "an empty order");
  for (uint8_t tag = 1; tag <= LAST_TAG; tag++) {
    order_bytes order = full;
    put_header(&order, tag, 9);
    if (without(&full, tag).length == full.length) continue; /* a coordinate's other form, or a Ramadan sheet's */
    snprintf(what, sizeof what, "tag %u again, with a wrong length and cut", tag);
    refused(&order, 3, (uint32_t)full.length, what);
    if (tag > 6) continue;
    order = without(&full, tag);
    snprintf(what, sizeof what, "tag %u missing", tag);
    refused(&order, 4, tag, what);
  }
}

/* Two rules broken at once: the first in document 01's order gives the number. */
static void check_precedence(void) {
  order_bytes order = good_order();
  put_town(&order, "Makkah");
  refused(&order, 3, GOOD_LENGTH, "town twice");
  order = place_order("Makkah", 2026, 13, 21, 10, 21.4225, 39.8262, 0);
  order_bytes nameless = without(&order, 1);
  refused(&nameless, 4, 1, "a missing tag before month 13");
  nameless = without(&nameless, 6);
  refused(&nameless, 4, 1, "the lower of two missing tags");
  put_byte(&order, 99);
  refused(&order, 1, GOOD_LENGTH, "a cut header before month 13");
  order_bytes first = {0};
  put_header(&first, 1, 0);
  put_header(&first, 99, 0);
  refused(&first, 2, 0, "the first wrong field of two");
}

/* A null pointer with length 0 is an empty order, or an empty buffer. */
static void check_null(void) {
  const order_bytes good = good_order();
  uint8_t line[ROW_LENGTH];
  answers all = {.lent_kept = true, .line_right = true, .cells_right = true};
  all.order = katchidul_read_order(NULL, 0);
  all.day = katchidul_work_day(NULL, 0, 0);
  all.prayer = katchidul_prayer_at(NULL, 0, 0, 0, 0);
  all.next = katchidul_next_at(NULL, 0, 0, 0, 0);
  all.remaining = katchidul_remaining_at(NULL, 0, 0, 0, 0);
  all.written = katchidul_write_row(NULL, 0, 0, line, sizeof line);
  all.cells = katchidul_write_cells(NULL, 0, 0, line, sizeof line);
  check(order_refused(&all.order, 4, 1) && row_refused(&all, 4, 1), "a null pointer with length 0 is an empty order");
  check(katchidul_write_row(good.bytes, good.length, 0, NULL, 0).number == 9, "a null pointer with size 0 is an empty buffer");
  check(katchidul_write_row(NULL, 0, 0, NULL, 0).number == 9, "two null pointers");
}

void check_refusals(void) {
  check_null();
  check_cut_fields();
  check_sizes();
  check_lengths();
  check_repeats_and_missing();
  check_precedence();
}
