/* A row's line from what the other calls return, written from document 01's section on the sheet alone: the row's date, then each time as
   signed days from that date, T and the time of day. A Ramadan sheet has imsak before them, which is Fajr less its minutes. */
#include <stdio.h>

#include "host.h"

#define DAY 86400

static uint32_t month_days(uint32_t year, uint32_t month) {
  bool leap = year % 4 == 0 && (year % 100 != 0 || year % 400 == 0);
  if (month == 2) return leap ? 29 : 28;
  return month == 4 || month == 6 || month == 9 || month == 11 ? 30 : 31;
}

/* A time before 1970 belongs to the day that it is in, so the days are rounded down. */
static int put_time(char *text, int64_t time, int64_t date) {
  int64_t second = (time % DAY + DAY) % DAY, days = (time - second) / DAY - date;
  return sprintf(text, " %c%lldT%02d:%02d:%02d", days < 0 ? '-' : '+', (long long)(days < 0 ? -days : days), (int)(second / 3600),
                 (int)(second / 60 % 60), (int)(second % 60));
}

row_date date_of(const katchidul_order *order, uint32_t row) {
  row_date date = {order->year, order->month, order->day};
  for (uint32_t i = 0; i < row; i++) {
    if (++date.day <= month_days(date.year, date.month)) continue;
    date.day = 1;
    if (++date.month > 12) date.year++, date.month = 1;
  }
  return date;
}

row_line line_of(const katchidul_order *order, uint32_t row, const katchidul_day *day) {
  row_line line;
  row_date date = date_of(order, row);
  int at = sprintf(line.text, "%04u-%02u-%02u", date.year, date.month, date.day);
  int64_t days = days_to(date.year, date.month, date.day);
  if (order->ramadan) at += put_time(line.text + at, day->times[0] - 60 * (int64_t)order->imsak, days);
  for (int i = 0; i < 9; i++) at += put_time(line.text + at, day->times[i], days);
  line.length = (size_t)(at + sprintf(line.text + at, "\n"));
  return line;
}
