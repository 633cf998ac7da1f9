/* Every call on one order. The order is lent from a page with a forbidden page on each side. In every second call it ends where the
   forbidden page begins, so that a byte read past it ends the run. In the other calls canary bytes are on both sides. */
#define _DEFAULT_SOURCE
#include <string.h>
#include <sys/mman.h>
#include <unistd.h>

#include "host.h"

#define CANARY 0xA5

static uint8_t *room;
static size_t room_size;
static bool at_the_end;

/* Refused answers are compared whole, byte by byte: no struct may have padding. */
_Static_assert(sizeof(katchidul_order) == 8 * 4 + 4 * 8 + 18 * 4, "katchidul_order has padding");
_Static_assert(sizeof(katchidul_day) == 2 * 4 + 9 * 8, "katchidul_day has padding");
_Static_assert(sizeof(katchidul_prayer) == 3 * 4, "katchidul_prayer has padding");
_Static_assert(sizeof(katchidul_remaining) == 4 * 4, "katchidul_remaining has padding");
_Static_assert(sizeof(katchidul_cells) == 4 * 4, "katchidul_cells has padding");
_Static_assert(sizeof(katchidul_reply) == 2 * 4, "katchidul_reply has padding");

bool ask_start(void) {
  size_t page = (size_t)sysconf(_SC_PAGESIZE);
  room_size = page;
  if (page < ORDER_ROOM + 128) return false;
  uint8_t *pages = mmap(NULL, 3 * page, PROT_NONE, MAP_PRIVATE | MAP_ANONYMOUS, -1, 0);
  if (pages == MAP_FAILED) return false;
  room = pages + page;
  return mprotect(room, page, PROT_READ | PROT_WRITE) == 0;
}

const uint8_t *lend(const order_bytes *order) {
  at_the_end = !at_the_end;
  size_t at = at_the_end ? room_size - order->length : 64;
  memset(room, CANARY, room_size);
  memcpy(room + at, order->bytes, order->length);
  return room + at;
}

static bool all_canaries(const uint8_t *from, const uint8_t *to) {
  while (from < to && *from == CANARY) from++;
  return from >= to;
}

bool order_kept(const order_bytes *order, const uint8_t *lent) {
  return memcmp(lent, order->bytes, order->length) == 0 && all_canaries(room, lent) &&
         all_canaries(lent + order->length, room + room_size);
}

/* The sizes begin with the least that a row needs; shorter buffers are tried apart. */
static void ask_row(answers *all, const order_bytes *order, const uint8_t *lent, uint32_t row) {
  static const size_t sizes[] = {ROW_LENGTH, ROW_LENGTH + 1, 200, BUFFER_MOST};
  static uint32_t call;
  size_t more = all->order.ramadan ? RAMADAN_LENGTH - ROW_LENGTH : 0, size = sizes[call++ % 4] + more;
  all->written = write_lent(lent, order->length, row, size < BUFFER_MOST ? size : BUFFER_MOST);
  all->lent_kept = all->lent_kept && order_kept(order, lent);
  all->line_right = false;
  if (all->written.number != 0) all->line_right = buffer_kept();
  else if (all->order.number == 0 && all->day.number == 0) {
    row_line line = line_of(&all->order, row, &all->day);
    all->line_right = buffer_has(&line);
  }
}

static void ask_cells(answers *all, const order_bytes *order, const uint8_t *lent, uint32_t row) {
  static const size_t sizes[] = {39, 40, 100, BUFFER_MOST};
  static uint32_t call;
  size_t size = sizes[call++ % 4];
  all->cells = katchidul_write_cells(lent, order->length, row, lend_buffer(size), size);
  all->lent_kept = all->lent_kept && order_kept(order, lent);
  if (all->cells.number != 0) {
    all->cells_right = cells_refused(&all->cells, all->cells.number, all->cells.place) && buffer_kept();
    return;
  }
  row_cells cells = cells_of(&all->order, row, &all->day);
  all->cells_right = all->cells.place == 0 && all->cells.rows == 1 && all->cells.dots == dots_in(cells.cells, 39) && buffer_holds(cells.cells, 39);
}

answers ask(const order_bytes *order, uint32_t row, int64_t seconds, uint32_t nanoseconds) {
  answers all;
  size_t length = order->length;
  const uint8_t *lent = lend(order);
  all.order = katchidul_read_order(lent, length);
  all.lent_kept = order_kept(order, lent);
  all.day = katchidul_work_day(lent, length, row);
  all.lent_kept = all.lent_kept && order_kept(order, lent);
  all.prayer = katchidul_prayer_at(lent, length, row, seconds, nanoseconds);
  all.lent_kept = all.lent_kept && order_kept(order, lent);
  all.next = katchidul_next_at(lent, length, row, seconds, nanoseconds);
  all.lent_kept = all.lent_kept && order_kept(order, lent);
  all.remaining = katchidul_remaining_at(lent, length, row, seconds, nanoseconds);
  all.lent_kept = all.lent_kept && order_kept(order, lent);
  ask_row(&all, order, lent, row);
  ask_cells(&all, order, lent, row);
  return all;
}

bool order_refused(const katchidul_order *answer, uint32_t number, uint32_t place) {
  katchidul_order expected;
  memset(&expected, 0, sizeof expected);
  expected.number = number;
  expected.place = place;
  return memcmp(answer, &expected, sizeof expected) == 0;
}

bool day_refused(const katchidul_day *answer, uint32_t number, uint32_t place) {
  katchidul_day expected = {number, place, {0}};
  return memcmp(answer, &expected, sizeof expected) == 0;
}

bool prayer_refused(const katchidul_prayer *answer, uint32_t number, uint32_t place) {
  return answer->number == number && answer->place == place && answer->prayer == 0;
}

bool remaining_refused(const katchidul_remaining *answer, uint32_t number, uint32_t place) {
  return answer->number == number && answer->place == place && answer->hours == 0 && answer->minutes == 0;
}

bool instant_refused(const answers *all, uint32_t number, uint32_t place) {
  return prayer_refused(&all->prayer, number, place) && prayer_refused(&all->next, number, place) &&
         remaining_refused(&all->remaining, number, place);
}

bool line_answered(const answers *all, uint32_t number, uint32_t place) {
  return all->written.number == number && all->written.place == place && all->line_right;
}

bool cells_answered(const answers *all, uint32_t number, uint32_t place) {
  if (number >= 6 && number <= 8) number = place = 0;
  return all->cells.number == number && all->cells.place == place && all->cells_right;
}

bool row_refused(const answers *all, uint32_t number, uint32_t place) {
  return day_refused(&all->day, number, place) && line_answered(all, number, place) && instant_refused(all, number, place) &&
         cells_answered(all, number, place);
}
