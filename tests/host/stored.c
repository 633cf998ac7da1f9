/* The crate's stored answers, compared with the library's. tests/crate/list-orders made the file, and says what its lines are. A library
   whose answers agree with each other, but are all a minute late, fails here. */
#include <inttypes.h>
#include <stdio.h>
#include <string.h>

#include "host.h"

#define DAY 86400
#define LINE_ROOM 1024

/* The order of the next lines, and the row of an instant. */
typedef struct {
  order_bytes order;
  katchidul_order read;
  int64_t day;   /* of row 0, from 1970-01-01 */
  int64_t start; /* 0h of the row's date */
  uint32_t row, lines;
} listing;

static bool take_order(order_bytes *order, const char *digits) {
  unsigned byte;
  order->length = 0;
  for (; sscanf(digits, "%2x", &byte) == 1; digits += 2) put_byte(order, (uint8_t)byte);
  return *digits == 0;
}

static void take_row(listing *at, uint32_t row) {
  at->row = row;
  at->start = (at->day + row) * DAY;
}

static bool check_refused(listing *at, const char *line) {
  uint32_t number, place;
  int digits;
  if (sscanf(line, "refused %" SCNu32 " %" SCNu32 " %n", &number, &place, &digits) != 2) return false;
  if (!take_order(&at->order, line + digits)) return false;
  answers all = ask(&at->order, 0, 0, 0);
  check(all.lent_kept && order_refused(&all.order, number, place) && row_refused(&all, number, place), line);
  return true;
}

static bool check_order(listing *at, const char *line) {
  int digits;
  if (sscanf(line, "order %" SCNd64 " %n", &at->day, &digits) != 1 || !take_order(&at->order, line + digits)) return false;
  at->read = katchidul_read_order(at->order.bytes, at->order.length);
  check(at->read.number == 0 && days_to(at->read.year, at->read.month, at->read.day) == at->day, line);
  return true;
}

/* The nine times, and the line that they make. */
static bool check_row(listing *at, const char *line) {
  katchidul_day stored = {0};
  uint32_t row;
  int64_t *time = stored.times;
  if (sscanf(line, "row %" SCNu32 " %" SCNd64 " %" SCNd64 " %" SCNd64 " %" SCNd64 " %" SCNd64 " %" SCNd64 " %" SCNd64 " %" SCNd64 " %" SCNd64, &row,
             time, time + 1, time + 2, time + 3, time + 4, time + 5, time + 6, time + 7, time + 8) != 10) return false;
  take_row(at, row);
  for (int i = 0; i < 9; i++) time[i] += at->start;
  katchidul_day day = katchidul_work_day(at->order.bytes, at->order.length, row);
  check(memcmp(&day, &stored, sizeof day) == 0, line);
  row_line text = line_of(&at->read, row, &stored);
  check(row_written(&at->order, row, ROW_LENGTH, &text), line);
  return true;
}

static bool check_lack(listing *at, const char *line) {
  uint32_t row, number, day;
  if (sscanf(line, "lacks %" SCNu32 " %" SCNu32 " %" SCNu32, &row, &number, &day) != 3) return false;
  take_row(at, row);
  answers all = ask(&at->order, row, 0, 0);
  check(all.lent_kept && row_refused(&all, number, day), line);
  return true;
}

static bool check_instant(listing *at, const char *line) {
  int64_t from;
  uint32_t nanoseconds, prayer, next, hours, minutes;
  if (sscanf(line, "at %" SCNd64 " %" SCNu32 " %" SCNu32 " %" SCNu32 " %" SCNu32 " %" SCNu32, &from, &nanoseconds, &prayer, &next, &hours,
             &minutes) != 6) return false;
  answers all = ask(&at->order, at->row, at->start + from, nanoseconds);
  bool same = all.lent_kept && all.prayer.number == 0 && all.prayer.place == 0 && all.prayer.prayer == prayer;
  if (prayer == 0) {
    same = same && prayer_refused(&all.next, 11, 0) && remaining_refused(&all.remaining, 11, 0);
  } else {
    same = same && all.next.number == 0 && all.next.place == 0 && all.next.prayer == next && all.remaining.number == 0 &&
           all.remaining.place == 0 && all.remaining.hours == hours && all.remaining.minutes == minutes;
  }
  check(same, line);
  return true;
}

static bool check_line(listing *at, const char *line) {
  static const struct { const char *word; bool (*check)(listing *, const char *); } kinds[] = {
      {"refused ", check_refused}, {"order ", check_order}, {"row ", check_row}, {"lacks ", check_lack}, {"at ", check_instant}};
  for (size_t i = 0; i < sizeof kinds / sizeof *kinds; i++)
    if (strncmp(line, kinds[i].word, strlen(kinds[i].word)) == 0) return kinds[i].check(at, line);
  return false;
}

void check_stored(const char *path) {
  static listing at;
  char line[LINE_ROOM];
  FILE *file = fopen(path, "r");
  check(file != NULL, "the stored answers are there");
  if (file == NULL) return;
  while (fgets(line, sizeof line, file) != NULL) {
    line[strcspn(line, "\n")] = 0;
    at.lines++;
    if (!check_line(&at, line)) check(false, line);
  }
  fclose(file);
  check(at.lines >= 4000, "the stored answers are some thousands");
}
