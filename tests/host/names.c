/* The header's constants, each compared with what the library does. */
#include <string.h>

#include "host.h"

/* A host may declare an answer's struct without the header. */
struct katchidul_order;
struct katchidul_day;
struct katchidul_prayer;
struct katchidul_remaining;
struct katchidul_reply;
struct katchidul_cells;
struct katchidul_queue;
struct katchidul_joined;
struct katchidul_turned;
struct katchidul_log;
struct katchidul_written;
struct katchidul_meaning;
struct katchidul_map;

static uint32_t refused(const order_bytes *order) { return katchidul_read_order(order->bytes, order->length).number; }

static void check_limits(void) {
  order_bytes order = {0}, full = full_order();
  char town[KATCHIDUL_TOWN_MAX + 1] = {0};
  uint8_t line[KATCHIDUL_ROW_BYTES], page[KATCHIDUL_PAGE_CELLS];
  while (order.length < KATCHIDUL_ORDER_MAX) put_byte(&order, 99);
  check(refused(&order) == KATCHIDUL_FIELD_UNKNOWN, "KATCHIDUL_ORDER_MAX bytes are read");
  put_byte(&order, 99);
  check(refused(&order) == KATCHIDUL_FIELD_CUT, "one more than KATCHIDUL_ORDER_MAX is too many");
  memset(town, 'a', KATCHIDUL_TOWN_MAX);
  order = place_order(town, 2026, 1, 1, KATCHIDUL_ROWS_MAX, 0, 0, 0);
  check(refused(&order) == 0, "KATCHIDUL_TOWN_MAX and KATCHIDUL_ROWS_MAX are allowed");
  order = place_order("A", 2026, 1, 1, KATCHIDUL_ROWS_MAX + 1, 0, 0, 0);
  check(refused(&order) == KATCHIDUL_OUT_OF_RANGE, "one more than KATCHIDUL_ROWS_MAX is out of range");
  check(katchidul_write_row(full.bytes, full.length, 0, line, sizeof line).number == 0 && line[sizeof line - 1] == '\n',
        "KATCHIDUL_ROW_BYTES hold a row");
  check(katchidul_write_row(full.bytes, full.length, 0, line, sizeof line - 1).number == KATCHIDUL_BUFFER_SHORT,
        "one less than KATCHIDUL_ROW_BYTES is too short");
  order_bytes fast = ramadan_sheet(&full, 1447, KATCHIDUL_IMSAK_MAX, 1);
  check(katchidul_read_order(fast.bytes, fast.length).rows == KATCHIDUL_RAMADAN_ROWS, "KATCHIDUL_RAMADAN_ROWS and KATCHIDUL_IMSAK_MAX are allowed");
  check(katchidul_write_row(fast.bytes, fast.length, 0, page, KATCHIDUL_RAMADAN_ROW_BYTES).number == 0, "KATCHIDUL_RAMADAN_ROW_BYTES hold a row");
  check(katchidul_write_row(fast.bytes, fast.length, 0, page, KATCHIDUL_RAMADAN_ROW_BYTES - 1).number == KATCHIDUL_BUFFER_SHORT,
        "one less than KATCHIDUL_RAMADAN_ROW_BYTES is too short");
  check(katchidul_write_cells(full.bytes, full.length, 0, page, KATCHIDUL_ROW_CELLS).rows == 1, "KATCHIDUL_ROW_CELLS hold a row");
  check(katchidul_write_cells(full.bytes, full.length, 0, page, KATCHIDUL_ROW_CELLS - 1).number == KATCHIDUL_BUFFER_SHORT,
        "one less than KATCHIDUL_ROW_CELLS is too short");
  order = place_order("A", 2026, 1, 1, KATCHIDUL_PAGE_ROWS + 1, 0, 0, 0);
  check(katchidul_write_page(order.bytes, order.length, 1, 0, page, sizeof page).rows == KATCHIDUL_PAGE_ROWS, "KATCHIDUL_PAGE_CELLS hold a page");
  check(katchidul_write_page(order.bytes, order.length, 1, 0, page, sizeof page - 1).rows == KATCHIDUL_PAGE_ROWS - 1,
        "one less than KATCHIDUL_PAGE_CELLS hold a row less");
  check(katchidul_write_page(order.bytes, order.length, 1, 0, page, KATCHIDUL_ROW_CELLS - 1).number == KATCHIDUL_BUFFER_SHORT,
        "one less than KATCHIDUL_ROW_CELLS is too short for a page");
}

static uint32_t refused_at(int64_t seconds, uint32_t nanoseconds) {
  order_bytes good = good_order();
  return katchidul_prayer_at(good.bytes, good.length, 0, seconds, nanoseconds).number;
}

static void check_instants_named(void) {
  check(refused_at(KATCHIDUL_SECONDS_MAX, KATCHIDUL_NANOSECONDS_MAX) == 0, "KATCHIDUL_SECONDS_MAX, KATCHIDUL_NANOSECONDS_MAX");
  check(refused_at(-KATCHIDUL_SECONDS_MAX, 0) == 0, "KATCHIDUL_SECONDS_MAX before 1970");
  check(refused_at(KATCHIDUL_SECONDS_MAX + 1, 0) == KATCHIDUL_INSTANT_BEYOND, "a second over KATCHIDUL_SECONDS_MAX");
  check(refused_at(0, KATCHIDUL_NANOSECONDS_MAX + 1u) == KATCHIDUL_INSTANT_BEYOND, "a nanosecond over KATCHIDUL_NANOSECONDS_MAX");
}

static void check_numbers(void) {
  order_bytes good = good_order(), again = good, empty = {0}, pole = place_order("Pole", 2026, 6, 21, 1, 90, 0, 0);
  order_bytes sea = place_order("Sea", 2026, 6, 21, 1, 40, -66.7, 0), line = place_order("Line", 2026, 4, 16, 1, 0, 180, 0);
  put_town(&again, "A");
  check(refused(&again) == KATCHIDUL_FIELD_AGAIN && refused(&empty) == KATCHIDUL_TAG_MISSING, "3 and 4 by name");
  check(katchidul_work_day(line.bytes, line.length, 0).number == KATCHIDUL_NO_TRANSIT, "6 by name");
  check(katchidul_work_day(pole.bytes, pole.length, 0).number == KATCHIDUL_NO_SUNRISE, "7 by name");
  check(katchidul_work_day(sea.bytes, sea.length, 0).number == KATCHIDUL_NO_SUNSET, "8 by name");
  check(katchidul_next_at(good.bytes, good.length, 0, 0, 0).number == KATCHIDUL_NONE_IN_FORCE, "11 by name");
  check(katchidul_prayer_at(good.bytes, good.length, 0, 0, 0).prayer == KATCHIDUL_PRAYER_NONE, "no prayer by name");
}

/* At its time each prayer is in force, on a day whose times rise. */
static void check_times_named(void) {
  static const struct { int time; uint32_t prayer; } named[] = {
      {KATCHIDUL_TIME_FAJR, KATCHIDUL_PRAYER_FAJR},       {KATCHIDUL_TIME_SUNRISE, KATCHIDUL_PRAYER_SUNRISE},
      {KATCHIDUL_TIME_DHUHR, KATCHIDUL_PRAYER_DHUHR},     {KATCHIDUL_TIME_ASR, KATCHIDUL_PRAYER_ASR},
      {KATCHIDUL_TIME_MAGHRIB, KATCHIDUL_PRAYER_MAGHRIB}, {KATCHIDUL_TIME_ISHA, KATCHIDUL_PRAYER_ISHA},
      {KATCHIDUL_TIME_QIYAM, KATCHIDUL_PRAYER_QIYAM},     {KATCHIDUL_TIME_TOMORROW, KATCHIDUL_PRAYER_FAJR_TOMORROW}};
  order_bytes good = good_order();
  katchidul_day day = katchidul_work_day(good.bytes, good.length, 0);
  for (size_t i = 0; i < sizeof named / sizeof *named; i++) {
    katchidul_prayer at = katchidul_prayer_at(good.bytes, good.length, 0, day.times[named[i].time], 0);
    check(at.number == 0 && at.prayer == named[i].prayer, "a time's index and its prayer's number");
  }
  check(day.times[KATCHIDUL_TIME_MIDDLE] > day.times[KATCHIDUL_TIME_ISHA] && day.times[KATCHIDUL_TIME_MIDDLE] < day.times[KATCHIDUL_TIME_QIYAM],
        "the middle of the night by its index");
}

/* A minute more for one prayer moves its time by a minute. */
static void check_minutes_named(void) {
  static const int named[KATCHIDUL_MINUTES_COUNT][2] = {
      {KATCHIDUL_MINUTES_FAJR, KATCHIDUL_TIME_FAJR},       {KATCHIDUL_MINUTES_SUNRISE, KATCHIDUL_TIME_SUNRISE},
      {KATCHIDUL_MINUTES_DHUHR, KATCHIDUL_TIME_DHUHR},     {KATCHIDUL_MINUTES_ASR, KATCHIDUL_TIME_ASR},
      {KATCHIDUL_MINUTES_MAGHRIB, KATCHIDUL_TIME_MAGHRIB}, {KATCHIDUL_MINUTES_ISHA, KATCHIDUL_TIME_ISHA}};
  order_bytes good = good_order();
  katchidul_day day = katchidul_work_day(good.bytes, good.length, 0);
  for (size_t i = 0; i < KATCHIDUL_MINUTES_COUNT; i++) {
    int16_t minutes[6] = {0};
    order_bytes order = good;
    minutes[named[i][0]] = 1;
    put_minutes(&order, minutes);
    katchidul_day later = katchidul_work_day(order.bytes, order.length, 0);
    check(katchidul_read_order(order.bytes, order.length).minutes[named[i][0]] == 1, "own minutes by their index");
    check(later.times[named[i][1]] == day.times[named[i][1]] + 60, "own minutes move the time of their name");
  }
}

/* The ends of a job's ranges, and of the queue's. */
static void check_jobs_named(void) {
  katchidul_queue queue = {0};
  check(katchidul_join(queue, KATCHIDUL_ID_MAX, KATCHIDUL_PAGES_MAX).number == 0, "KATCHIDUL_ID_MAX, KATCHIDUL_PAGES_MAX");
  check(katchidul_join(queue, KATCHIDUL_ID_MAX + 1, 1).number == KATCHIDUL_JOB_UNFIT, "one more than KATCHIDUL_ID_MAX");
  check(katchidul_join(queue, 1, KATCHIDUL_PAGES_MAX + 1).number == KATCHIDUL_JOB_UNFIT, "one more than KATCHIDUL_PAGES_MAX");
  for (uint32_t id = 1; id <= KATCHIDUL_JOBS_MAX; id++) queue = katchidul_join(queue, id, 1).queue;
  check(queue.jobs == KATCHIDUL_JOBS_MAX, "KATCHIDUL_JOBS_MAX jobs wait");
  check(katchidul_join(queue, KATCHIDUL_ID_MAX, 1).number == KATCHIDUL_QUEUE_FULL, "one more than KATCHIDUL_JOBS_MAX");
}

/* A log with each record, and a buffer that is just long enough for its compaction. */
static void check_records_named(void) {
  uint8_t log[KATCHIDUL_RECORD_BYTES] = {KATCHIDUL_RECORD_FINISHED, 0, 2, 255, 254}, second[KATCHIDUL_LOG_ROOM(1)] = {0};
  katchidul_log sent = katchidul_append(log, sizeof log, sizeof log, KATCHIDUL_RECORD_SENT, KATCHIDUL_PAGE_MAX, second, sizeof second);
  check(sent.number == 0 && sent.sent == KATCHIDUL_PAGE_MAX && sent.used == 2 * KATCHIDUL_RECORD_BYTES, "KATCHIDUL_PAGE_MAX is sent");
  katchidul_log done = katchidul_append(second, sizeof second, sent.used, KATCHIDUL_RECORD_DONE, KATCHIDUL_PAGE_MAX, NULL, 0);
  check(done.number == 0 && done.finished == KATCHIDUL_PAGE_MAX && done.used == KATCHIDUL_LOG_ROOM(1), "KATCHIDUL_LOG_ROOM(1) has room");
  katchidul_log more = katchidul_append(second, sizeof second, done.used, KATCHIDUL_RECORD_SENT, KATCHIDUL_PAGE_MAX + 1, log, sizeof log);
  check(more.number == KATCHIDUL_LOG_OUT_OF_TURN, "one more than KATCHIDUL_PAGE_MAX");
  katchidul_log fewer = katchidul_restart(second, sizeof second, done.used, KATCHIDUL_PAGE_MAX - 1, log, 0);
  katchidul_log shorter = katchidul_restart(second, sizeof second, done.used, KATCHIDUL_PAGE_MAX, log, sizeof log - 1);
  check(fewer.number == KATCHIDUL_LOG_COUNT_OUTSIDE && shorter.number == KATCHIDUL_LOG_SECOND_SHORT, "12 and 14 by name");
}

void check_names(void) {
  check_jobs_named();
  check_records_named();
  check_limits();
  check_instants_named();
  check_numbers();
  check_times_named();
  check_minutes_named();
}
