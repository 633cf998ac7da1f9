/* Instants: 10 is checked first and 11 last; and the marked cases of the prayer in force and of the time remaining. */
#include <math.h>

#include "host.h"

#define SECONDS_END INT64_C(1000000000000)
#define LAST_NANOSECOND 999999999u

static void at(const order_bytes *order, uint32_t row, int64_t seconds, uint32_t nanoseconds, bool refused, const char *what) {
  answers all = ask(order, row, seconds, nanoseconds);
  bool ten = instant_refused(&all, 10, 0) && all.day.number != 10;
  check(answers_agree(&all, row, seconds, nanoseconds) && ten == refused, what);
}

static void check_ends(const order_bytes *order, uint32_t row) {
  at(order, row, SECONDS_END, 0, false, "10^12");
  at(order, row, SECONDS_END, LAST_NANOSECOND, false, "10^12 and the last nanosecond");
  at(order, row, SECONDS_END + 1, 0, true, "10^12 + 1");
  at(order, row, -SECONDS_END, 0, false, "-10^12");
  at(order, row, -SECONDS_END, LAST_NANOSECOND, false, "-10^12 and the last nanosecond");
  at(order, row, -SECONDS_END - 1, 0, true, "-10^12 - 1");
  at(order, row, -SECONDS_END - 1, LAST_NANOSECOND, true, "-10^12 - 1 and the last nanosecond");
  at(order, row, 0, LAST_NANOSECOND, false, "the last nanosecond");
  at(order, row, 0, LAST_NANOSECOND + 1, true, "10^9 nanoseconds");
  at(order, row, 0, UINT32_MAX, true, "the most nanoseconds");
  at(order, row, INT64_MAX, 0, true, "the largest instant");
  at(order, row, INT64_MIN, 0, true, "the smallest instant");
}

/* A second before the earliest of the eight none is in force; less than a second before it, Fajr is. */
static void check_first(const order_bytes *order, const katchidul_day *day) {
  answers all = ask(order, 0, day->times[0] - 1, 0);
  check(all.prayer.number == 0 && all.prayer.place == 0 && all.prayer.prayer == 0, "none is in force, and that is no refusal");
  check(prayer_refused(&all.next, 11, 0) && remaining_refused(&all.remaining, 11, 0), "next and remaining give 11");
  all = ask(order, 0, day->times[0] - 1, 1);
  check(all.prayer.prayer == 1 && all.next.number == 0 && all.next.prayer == 2, "a nanosecond less than a second before Fajr");
  all = ask(order, 0, day->times[0] - 1, 500000000);
  check(all.prayer.prayer == 1, "half a second before Fajr counts");
  all = ask(order, 0, -SECONDS_END, 0);
  check(all.prayer.number == 0 && all.prayer.prayer == 0 && all.next.number == 11, "none at -10^12");
}

static void check_prayers(const order_bytes *order, const katchidul_day *day) {
  static const int time_of[9] = {-1, 0, 1, 2, 3, 4, 5, 7, 8};
  for (uint32_t prayer = 1; prayer <= 8; prayer++) {
    int64_t time = day->times[time_of[prayer]];
    for (int64_t second = -2; second <= 2; second++) {
      at(order, 0, time + second, 0, false, "around a time");
      at(order, 0, time + second, 1, false, "around a time, and a nanosecond");
      at(order, 0, time + second, LAST_NANOSECOND, false, "around a time, and the last nanosecond");
    }
    answers all = ask(order, 0, time, 0);
    check(all.prayer.prayer == prayer && all.next.prayer == (prayer < 8 ? prayer + 1 : 8), "at its time a prayer is in force");
  }
}

static void remains(const order_bytes *order, int64_t seconds, uint32_t nanoseconds, uint32_t hours, uint32_t minutes,
                    const char *what) {
  katchidul_remaining left = ask(order, 0, seconds, nanoseconds).remaining;
  check(left.number == 0 && left.place == 0 && left.hours == hours && left.minutes == minutes, what);
}

/* Before Dhuhr, with the sunrise long past. */
static void check_remaining(const order_bytes *order, const katchidul_day *day) {
  int64_t dhuhr = day->times[2], tomorrow = day->times[8];
  remains(order, dhuhr - 3599, 0, 0, 60, "3,599 seconds are 0 hours 60 minutes");
  remains(order, dhuhr - 3600, 0, 1, 0, "3,600 seconds are 1 hour");
  remains(order, dhuhr - 3600, 1, 0, 60, "a nanosecond less than 3,600 seconds");
  remains(order, dhuhr - 3630, 0, 1, 0, "3,630 seconds are 1 hour 0 minutes");
  remains(order, dhuhr - 30, 0, 0, 1, "30 seconds are a minute");
  remains(order, dhuhr - 29, 0, 0, 0, "29 seconds are none");
  remains(order, tomorrow - 1, 1, 0, 0, "nothing remains in the last fraction before tomorrow's Fajr");
  remains(order, tomorrow, 0, 0, 0, "nothing remains at tomorrow's Fajr");
  remains(order, SECONDS_END, LAST_NANOSECOND, 0, 0, "nothing remains at 10^12");
}

/* Half a minute is rounded up in the last hour. Before that, the doubles of the header's expression decide. */
static void check_halves(const order_bytes *order, const katchidul_day *day) {
  uint32_t down = 0;
  for (uint32_t ahead = 30; ahead < 6 * 3600; ahead += 60) {
    double whole = ahead / 60.0 / 60.0, hours = trunc(whole), minutes = round((whole - hours) * 60.0);
    remains(order, day->times[2] - ahead, 0, (uint32_t)hours, (uint32_t)minutes, "half a minute by the header's expression");
    if (ahead < 3600) remains(order, day->times[2] - ahead, 0, 0, ahead / 60 + 1, "half a minute of the last hour goes up");
    if (minutes == ahead % 3600 / 60) down++;
  }
  check(down > 0, "half a minute goes down too");
}

void check_instants(void) {
  order_bytes good = good_order(), bad = good_order(), pole = place_order("Pole", 2026, 6, 21, 1, 90, 0, 0), empty = {0};
  answers all = ask(&good, 0, 0, 0);
  put_byte(&bad, 99);
  check_ends(&good, 0);
  check_ends(&good, 10);
  check_ends(&bad, 0);
  check_ends(&pole, 0);
  check_ends(&empty, 0);
  check_first(&good, &all.day);
  check_prayers(&good, &all.day);
  check_remaining(&good, &all.day);
  check_halves(&good, &all.day);
  order_bytes before = place_order("A", 1967, 12, 25, 10, 51.5, -0.125, 5);
  all = ask(&before, 0, 0, 0);
  check_first(&before, &all.day);
  check_prayers(&before, &all.day);
}
