/* What the pages are, in braille: a cover before a job's first page, and a heading if the paper has room for one. */
#include "driver.h"

#include <string.h>
#include <time.h>

static const char *const months[] = {"January", "February", "March",     "April",   "May",      "June",
                                     "July",    "August",   "September", "October", "November", "December"};

/* ---- dates */

static struct tm date_of(const order *o, uint32_t row) {
  struct tm first = {.tm_year = (int)o->asks.year - 1900, .tm_mon = (int)o->asks.month - 1, .tm_mday = (int)(o->asks.day + row)}, date;
  time_t at = timegm(&first);
  gmtime_r(&at, &date);
  return date;
}

static void date_in_words(const order *o, uint32_t row, char *text, size_t size) {
  struct tm date = date_of(o, row);
  snprintf(text, size, "%d %s %d", date.tm_mday, months[date.tm_mon], date.tm_year + 1900);
}

/* ---- lines */

/* Puts a word on the cover's last line if it has room, else on a new line. A word longer than a line goes on in the next. */
static void add_word(cover *c, const paper *p, uint32_t *used, const uint8_t *word, size_t length) {
  if (*used > 0 && *used + 1 + length > p->width) c->count++, *used = 0;
  else if (*used > 0) ++*used;
  for (size_t i = 0; i < length; i++) {
    if (*used == p->width) c->count++, *used = 0;
    if (c->count < p->height) c->cells[c->count][(*used)++] = word[i];
  }
}

/* Puts the words of a paragraph on lines. Lines that the paper has no room for are left out. */
static void add(cover *c, const paper *p, const char *text) {
  uint8_t cells[4096];
  size_t length = braille(text, cells, sizeof cells);
  uint32_t used = 0;
  for (size_t at = 0; at < length && c->count < p->height;) {
    size_t end = at;
    while (end < length && cells[end] != 0) end++;
    if (end > at) add_word(c, p, &used, cells + at, end - at);
    at = end + 1;
  }
  if (c->count < p->height) c->count++;
}

static void add_blank(cover *c, const paper *p) {
  if (c->count < p->height) c->count++;
}

/* ---- the clock */

static void clock_in_words(int32_t clock, char *text, size_t size) {
  uint32_t minutes = (uint32_t)(clock < 0 ? -clock : clock), hours = minutes / 60;
  char some[64] = "", more[32] = "";
  minutes %= 60;
  if (clock == 0) {
    snprintf(text, size, "Clock: UTC, the same on every day.");
    return;
  }
  if (hours > 0) snprintf(some, sizeof some, "%u %s", hours, hours == 1 ? "hour" : "hours");
  if (minutes > 0) snprintf(more, sizeof more, "%s%u %s", hours > 0 ? " " : "", minutes, minutes == 1 ? "minute" : "minutes");
  snprintf(text, size, "Clock: %s%s %s UTC, the same on every day.", some, more, clock < 0 ? "behind" : "ahead of");
}

void cover_write(const order *o, const paper *p, cover *c) {
  char text[256], first[40], last[40];
  memset(c, 0, sizeof *c);
  snprintf(text, sizeof text, "Prayer times for %s", o->town);
  add(c, p, text);
  date_in_words(o, 0, first, sizeof first);
  date_in_words(o, o->asks.rows - 1, last, sizeof last);
  snprintf(text, sizeof text, o->asks.rows == 1 ? "%s" : "%s to %s", first, last);
  add(c, p, text);
  add_blank(c, p);
  add(c, p, "A line is a day. Columns: day of the month, Fajr, sunrise, Dhuhr, Asr, Maghrib, Isha.");
  add(c, p, "A time is two digits of the hour and two of the minute.");
  clock_in_words(o->asks.clock, text, sizeof text);
  add(c, p, text);
  add_blank(c, p);
  snprintf(text, sizeof text, "Pages: %u", order_pages(o));
  add(c, p, text);
  snprintf(text, sizeof text, "Job %u, order %s", o->id, o->file);
  add(c, p, text);
}

/* ---- headings */

static void months_of(const order *o, uint32_t page, char *text, size_t size) {
  uint32_t row = (page - 1) * KATCHIDUL_PAGE_ROWS;
  struct tm first = date_of(o, row), last = date_of(o, row + order_page_rows(o, page) - 1);
  if (first.tm_mon == last.tm_mon) snprintf(text, size, "%s", months[first.tm_mon]);
  else snprintf(text, size, "%.3s-%.3s", months[first.tm_mon], months[last.tm_mon]);
}

/* Town, month, and which page of how many. If the line is too short, only the town is cut. */
void heading_write(const order *o, uint32_t page, const paper *p, uint8_t cells[PAPER_MAX]) {
  char text[160], when[32];
  uint8_t made[1024];
  months_of(o, page, when, sizeof when);
  memset(cells, 0, PAPER_MAX);
  for (int town = (int)strlen(o->town); town >= 0; town--) {
    snprintf(text, sizeof text, "%.*s %s, page %u of %u", town, o->town, when, page, order_pages(o));
    size_t length = braille(text, made, sizeof made);
    if (length == 0 || length > p->width) continue;
    memcpy(cells, made, length);
    return;
  }
}
