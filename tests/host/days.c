/* Rows and days: a row that the order lacks, the Pole, and 6, 7 and 8 on each of the three days. */
#include "host.h"

static void day_is_refused(const order_bytes *order, uint32_t number, uint32_t day, const char *what) {
  answers all = ask(order, 0, 0, 0);
  check(all.lent_kept && all.order.number == 0 && row_refused(&all, number, day), what);
}

static void check_rows(void) {
  static const uint32_t beyond[] = {10, 11, 250, 255, 256, 266, 399, 400, 65536, 0x80000000u, 0xffffffffu};
  order_bytes order = good_order(), refused = good_order();
  for (uint32_t row = 0; row < 10; row++) {
    answers all = ask(&order, row, 0, 0);
    check(all.day.number == 0 && answers_agree(&all, row, 0, 0), "a row that the order has");
  }
  for (size_t i = 0; i < sizeof beyond / sizeof *beyond; i++) {
    answers all = ask(&order, beyond[i], 0, 0);
    check(all.lent_kept && all.order.number == 0 && row_refused(&all, 5, 3), "a row that the order lacks");
  }
  put_byte(&refused, 99);
  answers all = ask(&refused, 10, 0, 0);
  check(order_refused(&all.order, 1, 46) && row_refused(&all, 1, 46), "the order before the row");
  order_bytes pole = place_order("Pole", 2026, 6, 21, 1, 90, 0, 0);
  all = ask(&pole, 1, 0, 0);
  check(row_refused(&all, 5, 3), "the row before the day");
}

/* The longest order has rows 0 to 399, each a day after the one before it, over the end of a leap year's February. */
static void check_longest(void) {
  order_bytes order = place_order("A", 2027, 9, 1, KATCHIDUL_ROWS_MAX, 10, 20, 0);
  int64_t before = 0;
  for (uint32_t row = 0; row < KATCHIDUL_ROWS_MAX; row++) {
    answers all = ask(&order, row, 0, 0);
    int64_t step = all.day.times[2] - before;
    check(all.day.number == 0 && answers_agree(&all, row, 0, 0) && (row == 0 || (step >= 86340 && step <= 86460)), "a row of 400");
    before = all.day.times[2];
  }
  answers all = ask(&order, KATCHIDUL_ROWS_MAX, 0, 0);
  check(all.lent_kept && row_refused(&all, 5, 3), "row 400 of 400");
}

/* Tag 15 at the places that it was asked for: an Asr number that rounds to hour 24, a Fajr number that rounds to it from below 0, and
   sunsets of June that are lost without it. */
static void check_carry(void) {
  static const struct { uint16_t month, day; double longitude; int time; int64_t stops, carries; } cases[] = {
      {9, 16, -135, KATCHIDUL_TIME_ASR, 75300, 86400}, {6, 2, 70, KATCHIDUL_TIME_FAJR, -16920, 0}};
  for (size_t i = 0; i < sizeof cases / sizeof *cases; i++) {
    order_bytes stops = place_order("A", 2026, (uint8_t)cases[i].month, (uint8_t)cases[i].day, 1, 0, cases[i].longitude, 0), carries = stops;
    put_small(&stops, 15, KATCHIDUL_CARRY_STOPS), put_small(&carries, 15, KATCHIDUL_CARRY_CARRIES);
    int64_t start = days_to(2026, cases[i].month, cases[i].day) * 86400;
    check(katchidul_work_day(stops.bytes, stops.length, 0).times[cases[i].time] == start + cases[i].stops, "an hour number that stops");
    check(katchidul_work_day(carries.bytes, carries.length, 0).times[cases[i].time] == start + cases[i].carries, "one that carries");
  }
  order_bytes west = place_order("A", 2026, 6, 1, 60, 40, -66.7, 0), carried = west;
  put_small(&carried, 15, KATCHIDUL_CARRY_CARRIES);
  uint32_t lost = 0, kept = 0;
  for (uint32_t row = 0; row < 60; row++) {
    lost += katchidul_work_day(west.bytes, west.length, row).number == KATCHIDUL_NO_SUNSET;
    kept += katchidul_work_day(carried.bytes, carried.length, row).number == 0;
  }
  check(lost > 0 && kept == 60, "no day is lost where midnight carries");
}

/* Row r of an order is row 0 of the order that begins r days later. */
static void check_dates_move(void) {
  order_bytes order = place_order("A", 2027, 12, 25, 10, 51.5, -0.125, 5);
  for (uint32_t row = 0; row < 10; row++) {
    order_bytes later = row < 7 ? place_order("A", 2027, 12, (uint8_t)(25 + row), 1, 51.5, -0.125, 5)
                                : place_order("A", 2028, 1, (uint8_t)(row - 6), 1, 51.5, -0.125, 5);
    answers left = ask(&order, row, 0, 0), right = ask(&later, 0, 0, 0);
    bool same = left.day.number == 0 && right.day.number == 0;
    for (int i = 0; i < 9; i++) same = same && left.day.times[i] == right.day.times[i];
    check(same, "a row's times are those of its date");
  }
}

static void mark(bool seen[3][3], double latitude, double longitude) {
  order_bytes order = place_order("A", 2026, 3, 1, 250, latitude, longitude, 0);
  for (uint32_t row = 0; row < 250; row++) {
    answers all = ask(&order, row, 0, 0);
    uint32_t number = all.day.number, day = all.day.place;
    bool sound = answers_agree(&all, row, 0, 0);
    if (!sound) check(false, "a day of the search for 6, 7 and 8");
    if (sound && number != 0) seen[number - 6][day] = true;
  }
}

/* A transit that rounds to midnight, a sun that does not rise, a sunset that rounds to midnight. As the rows come near it, each is met on
   day 2 first, then on day 1, then on day 0. */
static void check_every_day(void) {
  bool seen[3][3] = {{false}};
  for (int i = 0; i < 20; i++) mark(seen, 0, -180 + 0.25 * i);
  for (int i = 0; i < 20; i++) mark(seen, 40, -66 - 0.25 * i);
  for (int i = 0; i < 4; i++) mark(seen, 66.75 + 0.25 * i, 0);
  for (int number = 0; number < 3; number++)
    for (int day = 0; day < 3; day++) check(seen[number][day], "6, 7 and 8 are each met on days 0, 1 and 2");
}

void check_days(void) {
  order_bytes pole = place_order("Pole", 2026, 6, 21, 1, 90, 0, 0);
  order_bytes sunset = place_order("Sea", 2026, 6, 21, 1, 40, -66.7, 0);
  day_is_refused(&pole, 7, 0, "the Pole has no sunrise on day 0");
  day_is_refused(&sunset, 8, 2, "no sunset on day 2");
  check_rows();
  check_longest();
  check_carry();
  check_dates_move();
  check_every_day();
}
