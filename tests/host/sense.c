/* What is true of the seven results on any bytes at all, from document 01's rules for the calls. It needs no second reader of orders and no
   second sun. */
#include "host.h"

#define DAY 86400
#define SECONDS_END INT64_C(1000000000000)

/* Where each of the eight prayers is among the nine times: the middle of the night is a time but no prayer. */
static const int time_of[9] = {-1, 0, 1, 2, 3, 4, 5, 7, 8};

int64_t days_to(int64_t year, int64_t month, int64_t day) {
  static const int before[12] = {0, 31, 59, 90, 120, 151, 181, 212, 243, 273, 304, 334};
  int64_t past = year - 1;
  int64_t leap = year % 4 == 0 && (year % 100 != 0 || year % 400 == 0) && month > 2;
  return past * 365 + past / 4 - past / 100 + past / 400 + before[month - 1] + leap + day - 1 - 719162;
}

static bool number_fits(const katchidul_order *order) {
  if (order->number == 0) return order->place == 0;
  if (!order_refused(order, order->number, order->place)) return false;
  switch (order->number) {
    case 1: case 2: case 3: return order->place < 1025;
    case 4: return order->place >= 1 && order->place <= 6;
    case 5: return order->place >= 1 && order->place <= LAST_TAG;
    case 15: return order->place == 18 || order->place == 19;
    case 18: return order->place == 2;
    default: return false;
  }
}

static bool record_fits(const katchidul_order *order) {
  bool fits = order->year >= 1900 && order->year <= 2199 && order->month >= 1 && order->month <= 12 && order->day >= 1 &&
              order->day <= 31 && order->rows >= 1 && order->rows <= KATCHIDUL_ROWS_MAX && order->latitude >= -90 &&
              order->latitude <= 90 && order->longitude >= -180 && order->longitude <= 180 && order->fajr_angle >= 0 &&
              order->fajr_angle <= 30 && order->isha_angle >= 0 && order->isha_angle <= 30 && order->method <= 12 &&
              order->madhab >= 1 && order->madhab <= 2 && order->high_latitude_rule <= 2 && order->rounding <= 2 &&
              order->shafaq <= 2 && order->carry <= 1 && order->clock >= -840 && order->clock <= 840 && order->southern <= 1 &&
              order->isha_interval <= 1440 && order->town_at >= 3 && order->town_length >= 1 &&
              order->town_length <= 40;
  fits = fits && order->ramadan <= 1 && order->imsak <= 30 && order->shift >= -1 && order->shift <= 1;
  fits = fits && (order->ramadan ? order->rows == 30 : order->imsak == 0 && order->shift == 0);
  for (int i = 0; i < 6; i++) fits = fits && order->minutes[i] >= -720 && order->minutes[i] <= 720;
  return fits;
}

static bool times_fit(const answers *all, uint32_t row) {
  int64_t date = days_to(all->order.year, all->order.month, all->order.day) + row;
  for (int i = 0; i < 9; i++) {
    int64_t from = all->day.times[i] - date * DAY;
    if (from <= -4 * DAY || from >= 5 * DAY) return false;
  }
  return true;
}

/* The last of the eight less than one second ahead. */
static uint32_t in_force(const katchidul_day *day, int64_t seconds, uint32_t nanoseconds) {
  uint32_t prayer = 8;
  while (prayer > 0) {
    int64_t ahead = day->times[time_of[prayer]] - seconds;
    if (ahead <= 0 || (ahead == 1 && nanoseconds > 0)) break;
    prayer--;
  }
  return prayer;
}

static bool remaining_fits(const answers *all, int64_t seconds, uint32_t nanoseconds) {
  const katchidul_remaining *left = &all->remaining;
  int64_t ahead = all->day.times[time_of[all->next.prayer]] - seconds - (nanoseconds > 0);
  if (left->number != 0 || left->place != 0 || left->minutes > 60) return false;
  if (ahead <= 0) return left->hours == 0 && left->minutes == 0;
  int64_t off = ahead - ((int64_t)left->hours * 3600 + (int64_t)left->minutes * 60);
  return left->hours == ahead / 3600 && off >= -30 && off <= 30;
}

static bool prayers_fit(const answers *all, int64_t seconds, uint32_t nanoseconds) {
  uint32_t prayer = in_force(&all->day, seconds, nanoseconds);
  if (all->prayer.number != 0 || all->prayer.place != 0 || all->prayer.prayer != prayer) return false;
  if (prayer == 0) return prayer_refused(&all->next, 11, 0) && remaining_refused(&all->remaining, 11, 0);
  return all->next.number == 0 && all->next.place == 0 && all->next.prayer == (prayer < 8 ? prayer + 1 : 8) &&
         remaining_fits(all, seconds, nanoseconds);
}

bool answers_agree(const answers *all, uint32_t row, int64_t seconds, uint32_t nanoseconds) {
  bool instant = seconds >= -SECONDS_END && seconds <= SECONDS_END && nanoseconds <= 999999999;
  const katchidul_day *day = &all->day;
  if (!all->lent_kept || !number_fits(&all->order)) return false;
  /* In a buffer with room for a full row of the order, the row is refused if the day is, and else written. */
  if (!line_answered(all, day->number, day->place)) return false;
  if (!cells_answered(all, day->number, day->place)) return false;
  if (!instant && !instant_refused(all, 10, 0)) return false;
  if (all->order.number != 0) {
    return day_refused(day, all->order.number, all->order.place) &&
           (!instant || instant_refused(all, all->order.number, all->order.place));
  }
  if (!record_fits(&all->order)) return false;
  if (row >= all->order.rows) return day_refused(day, 5, 3) && (!instant || instant_refused(all, 5, 3));
  if (day->number != 0) {
    return day->number >= 6 && day->number <= 8 && day->place <= 2 && day_refused(day, day->number, day->place) &&
           (!instant || instant_refused(all, day->number, day->place));
  }
  return day->place == 0 && times_fit(all, row) && (!instant || prayers_fit(all, seconds, nanoseconds));
}
