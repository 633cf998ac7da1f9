#define _GNU_SOURCE
#include "order.h"

#include <time.h>

uint32_t pages_of(const order *o) {
  return (katchidul_read_order(o->bytes, o->length).rows + KATCHIDUL_PAGE_ROWS - 1) / KATCHIDUL_PAGE_ROWS;
}

text town_of(const order *o) {
  katchidul_order asks = katchidul_read_order(o->bytes, o->length);
  return text_of("%.*s", (int)asks.town_length, (const char *)o->bytes + asks.town_at);
}

katchidul_cells page_cells(const order *o, uint32_t page, uint8_t cells[KATCHIDUL_PAGE_CELLS]) {
  return katchidul_write_page(o->bytes, o->length, page, 0, cells, KATCHIDUL_PAGE_CELLS);
}

uint32_t dots_through(const order *o, uint32_t page) {
  uint8_t cells[KATCHIDUL_PAGE_CELLS];
  uint32_t dots = 0;
  for (uint32_t i = 1; i <= page; i++) dots += page_cells(o, i, cells).dots;
  return dots;
}

static text date_of(const katchidul_order *asks, uint32_t row) {
  struct tm day = {.tm_year = (int)asks->year - 1900, .tm_mon = (int)asks->month - 1, .tm_mday = (int)(asks->day + row)};
  text date;
  timegm(&day); /* carries the days over into months and years */
  strftime(date.text, sizeof date.text, "%Y-%m-%d", &day);
  return date;
}

static void say_refused(const katchidul_order *asks, const char *about, uint32_t first, uint32_t end, const katchidul_day *day) {
  text from = date_of(asks, first), to = date_of(asks, end - 1), why = refusal(day->number, day->place);
  if (end - first == 1) say("%s: the day %s is refused: %s", about, from.text, why.text);
  else say("%s: the %u days from %s to %s are refused: %s", about, end - first, from.text, to.text, why.text);
}

void say_refused_days(const order *o, const char *about) {
  katchidul_order asks = katchidul_read_order(o->bytes, o->length);
  katchidul_day run = {0};
  uint32_t first = 0; /* of the days that are refused as `run` is, up to `row` */
  for (uint32_t row = 0; row <= asks.rows; row++) {
    katchidul_day day = {0};
    if (row < asks.rows) day = katchidul_work_day(o->bytes, o->length, row);
    if (row < asks.rows && day.number == run.number && day.place == run.place) continue;
    if (run.number != 0) say_refused(&asks, about, first, row, &run);
    run = day, first = row;
  }
}
