/* Ramadan sheets: their first days by the calendar's rule, their rows with imsak, and the order in which they are refused. */
#include <stdio.h>

#include "host.h"

static bool is_leap(uint32_t year) {
  static const uint32_t leap[] = {2, 5, 7, 10, 13, 16, 18, 21, 24, 26, 29};
  for (size_t i = 0; i < sizeof leap / sizeof *leap; i++)
    if (year % 30 == leap[i]) return true;
  return false;
}

/* Year by year from 1-1-1 on, Julian Day 1948439.5; 1970-01-01 is 2440587.5. Eight months are before Ramadan, of 30 and 29 days in turn. */
int64_t first_of_ramadan(uint32_t year) {
  int64_t day = 1948439 - 2440587;
  for (uint32_t past = 1; past < year; past++) day += is_leap(past) ? 355 : 354;
  return day + 4 * (30 + 29);
}

static row_date date_at(int64_t day) {
  katchidul_order first = {.year = 1899, .month = 1, .day = 1};
  while (days_to(first.year + 1, 1, 1) <= day) first.year++;
  return date_of(&first, (uint32_t)(day - days_to(first.year, 1, 1)));
}

static order_bytes sheet_from(const order_bytes *order, int64_t day, uint8_t imsak, uint8_t stored) {
  row_date date = date_at(day);
  order_bytes bare = without(order, 2), sheet = without(&bare, 3);
  put_date(&sheet, (uint16_t)date.year, (uint8_t)date.month, (uint8_t)date.day);
  put_rows(&sheet, 30, (uint16_t)(1 + (day & 1)));
  put_ramadan(&sheet, imsak, stored);
  return sheet;
}

order_bytes ramadan_sheet(const order_bytes *order, uint32_t year, uint8_t imsak, uint8_t stored) {
  return sheet_from(order, first_of_ramadan(year) + stored - 1, imsak, stored);
}

static bool refused_by(const order_bytes *order, uint32_t number, uint32_t place) {
  katchidul_order read = katchidul_read_order(order->bytes, order->length);
  return read.number == number && read.place == place;
}

/* Every first day of 1900 to 2199 with each shift, and the days beside it. */
static void check_starts(void) {
  order_bytes good = good_order();
  uint32_t starts = 0;
  for (uint32_t year = 1317; year <= 1626; year++) {
    int64_t first = first_of_ramadan(year);
    for (uint8_t stored = 0; stored < 3; stored++)
      for (int64_t day = first - 3; day <= first + 3; day++) {
        order_bytes sheet = sheet_from(&good, day, 10, stored);
        bool opens = day == first + stored - 1, there = day >= days_to(1900, 1, 1);
        char what[64];
        snprintf(what, sizeof what, "Ramadan %u, stored shift %u, day %+d", year, stored, (int)(day - first));
        check(opens && there ? refused_by(&sheet, 0, 0) : refused_by(&sheet, there ? 18 : 5, 2), what);
        starts += opens && stored == 1;
      }
  }
  check(starts == 310, "310 first days");
  check(first_of_ramadan(1447) == days_to(2026, 2, 18), "1 Ramadan 1447 is 2026-02-18");
}

static void check_record(void) {
  order_bytes full = full_order(), sheet = ramadan_sheet(&full, 1447, 30, 2);
  katchidul_order read = katchidul_read_order(sheet.bytes, sheet.length);
  check(read.number == 0 && read.ramadan == 1 && read.imsak == 30 && read.shift == 1, "imsak 30, shift 1");
  sheet = ramadan_sheet(&full, 1447, 0, 0);
  read = katchidul_read_order(sheet.bytes, sheet.length);
  check(read.number == 0 && read.ramadan == 1 && read.imsak == 0 && read.shift == -1, "imsak 0, shift -1");
}

/* Each row into buffers of every length: 9 below 131 bytes, and at 131 the row with imsak. The full order's Fajr keeps its seconds and is
   on the day before. */
static void check_rows_of(const order_bytes *order, const char *what) {
  katchidul_order read = katchidul_read_order(order->bytes, order->length);
  for (uint32_t row = 0; row < 30; row++) {
    katchidul_day day = katchidul_work_day(order->bytes, order->length, row);
    row_line line = line_of(&read, row, &day);
    check(day.number == 0 && line.length == RAMADAN_LENGTH, what);
    for (size_t size = 100; size < 200; size++)
      check(size < RAMADAN_LENGTH ? row_unwritten(order, row, size, 9, 0) : row_written(order, row, size, &line), what);
  }
  check(row_unwritten(order, 30, 130, 9, 0) && row_unwritten(order, 30, 131, 5, 3), "9 before the row, and then the row");
}

static void check_order_of_checks(void) {
  order_bytes good = good_order(), early = sheet_from(&good, first_of_ramadan(1447) - 1, 10, 1), other = early;
  check(row_unwritten(&early, 0, 118, 9, 0) && row_unwritten(&early, 30, 119, 18, 2), "118 bytes before the order, the start before 131");
  put_small(&other, 7, 3);
  check(refused_by(&other, 5, 7), "ranges before the start");
  other = sheet_from(&good, first_of_ramadan(1447) - 1, 31, 3);
  check(refused_by(&other, 5, 20), "imsak and shift before the start");
  order_bytes bare = without(&other, 3);
  put_rows(&bare, 29, 1);
  check(refused_by(&bare, 5, 3), "rows other than 30 before tag 20");
  bare = without(&bare, 3);
  check(refused_by(&bare, 4, 3), "missing rows before all of it");
}

void check_ramadan(void) {
  order_bytes good = good_order(), full = full_order(), sheet = ramadan_sheet(&good, 1447, 10, 1);
  check_starts();
  check_record();
  check_rows_of(&sheet, "imsak of the good order");
  sheet = ramadan_sheet(&full, 1447, 30, 2);
  check_rows_of(&sheet, "imsak of the full order");
  check_order_of_checks();
}
