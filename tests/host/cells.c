/* A row's cells, and a page's, whole and by pieces, in a lent buffer. What they must be is written from requests 2 and 9 of document 02
   alone: a cell by its raised dots, the times by what katchidul_work_day returns. */
#include <stdio.h>
#include <string.h>

#include "host.h"

#define DAY_MINUTES 1440

/* A cell by its raised dots. */
static uint8_t cell(const char *dots) {
  uint8_t byte = 0;
  for (; *dots != 0; dots++) byte |= (uint8_t)(1u << (*dots - '1'));
  return byte;
}

/* The letters j and a to i. */
static uint8_t digit(uint32_t n) {
  static const char *const letters[10] = {"245", "1", "12", "14", "145", "15", "124", "1245", "125", "24"};
  return cell(letters[n % 10]);
}

static size_t put_two(uint8_t *cells, uint32_t n) {
  cells[0] = digit(n / 10);
  cells[1] = digit(n);
  return 2;
}

static uint32_t minute_of(int64_t time, int32_t clock) {
  int64_t seconds = time + INT64_C(60) * clock, minutes = seconds / 60;
  if (seconds % 60 < 0) minutes--;
  return (uint32_t)((minutes % DAY_MINUTES + DAY_MINUTES) % DAY_MINUTES);
}

row_cells cells_of(const katchidul_order *order, uint32_t row, const katchidul_day *day) {
  row_cells made = {{0}};
  size_t at = 0;
  made.cells[at++] = cell("3456");
  at += put_two(made.cells + at, date_of(order, row).day);
  for (int i = 0; i < 6 && day->number == 0; i++) {
    uint32_t minute = minute_of(day->times[i], order->clock);
    made.cells[at++] = cell("");
    made.cells[at++] = cell("3456");
    at += put_two(made.cells + at, minute / 60);
    at += put_two(made.cells + at, minute % 60);
  }
  return made;
}

uint32_t dots_in(const uint8_t *cells, size_t count) {
  uint32_t dots = 0;
  for (size_t i = 0; i < count; i++)
    for (uint8_t rest = cells[i]; rest != 0; rest >>= 1) dots += rest & 1u;
  return dots;
}

bool cells_refused(const katchidul_cells *answer, uint32_t number, uint32_t place) {
  return answer->number == number && answer->place == place && answer->rows == 0 && answer->dots == 0;
}

static bool cells_given(const katchidul_cells *answer, uint32_t rows, const uint8_t *cells) {
  return answer->number == 0 && answer->place == 0 && answer->rows == rows && answer->dots == dots_in(cells, 39 * (size_t)rows) &&
         buffer_holds(cells, 39 * (size_t)rows);
}

/* The cells that the rows of a page must have, and how many there are. */
static uint32_t page_of(const order_bytes *order, uint32_t page, uint8_t cells[PAGE_LENGTH]) {
  katchidul_order read = katchidul_read_order(order->bytes, order->length);
  uint32_t first = 25 * (page - 1), rows = 0;
  for (; rows < 25 && first + rows < read.rows; rows++) {
    katchidul_day day = katchidul_work_day(order->bytes, order->length, first + rows);
    row_cells row = cells_of(&read, first + rows, &day);
    memcpy(cells + 39 * rows, row.cells, sizeof row.cells);
  }
  return rows;
}

static void one_row(const order_bytes *order, uint32_t row, size_t size, uint32_t number, uint32_t place, const char *what) {
  char whole[128];
  const uint8_t *lent = lend(order);
  katchidul_cells answer = katchidul_write_cells(lent, order->length, row, lend_buffer(size), size);
  bool right = order_kept(order, lent);
  if (number != 0) right = right && cells_refused(&answer, number, place) && buffer_kept();
  else {
    katchidul_order read = katchidul_read_order(order->bytes, order->length);
    katchidul_day day = katchidul_work_day(order->bytes, order->length, row);
    row_cells cells = cells_of(&read, row, &day);
    right = right && cells_given(&answer, 1, cells.cells);
  }
  snprintf(whole, sizeof whole, "cells of %s: row %u, %zu bytes", what, row, size);
  check(right, whole);
}

/* The rows of a page from one on, as many as fit the scratch and are left. */
static bool piece_given(const katchidul_cells *answer, uint32_t first, size_t size, uint32_t rows, const uint8_t *cells) {
  uint32_t left = rows - first, room = (uint32_t)(size / 39);
  return first < rows && cells_given(answer, room < left ? room : left, cells + 39 * first);
}

static void one_piece(const order_bytes *order, uint32_t page, uint32_t first, size_t size, uint32_t number, uint32_t place, const char *what) {
  char whole[128];
  uint8_t cells[PAGE_LENGTH];
  const uint8_t *lent = lend(order);
  katchidul_cells answer = katchidul_write_page(lent, order->length, page, first, lend_buffer(size), size);
  bool right = order_kept(order, lent);
  if (number != 0) right = right && cells_refused(&answer, number, place) && buffer_kept();
  else right = right && piece_given(&answer, first, size, page_of(order, page, cells), cells);
  snprintf(whole, sizeof whole, "cells of %s: page %u from row %u, %zu bytes", what, page, first, size);
  check(right, whole);
}

static void one_page(const order_bytes *order, uint32_t page, size_t size, uint32_t number, uint32_t place, const char *what) {
  one_piece(order, page, 0, size, number, place, what);
}

bool page_agrees(const order_bytes *order, uint32_t page, uint32_t first, size_t size) {
  uint8_t cells[PAGE_LENGTH];
  katchidul_order read = katchidul_read_order(order->bytes, order->length);
  const uint8_t *lent = lend(order);
  katchidul_cells answer = katchidul_write_page(lent, order->length, page, first, lend_buffer(size), size);
  if (!order_kept(order, lent)) return false;
  if (size < 39) return cells_refused(&answer, 9, 0) && buffer_kept();
  if (read.number != 0) return cells_refused(&answer, read.number, read.place) && buffer_kept();
  uint32_t rows = page == 0 || page > 16 ? 0 : page_of(order, page, cells);
  if (first >= rows) return cells_refused(&answer, 5, 3) && buffer_kept();
  return piece_given(&answer, first, size, rows, cells);
}

/* Every size that is too short is refused first; then the order is checked, and then the row or the page. */
static void check_order_of_checks(void) {
  order_bytes good = good_order(), cut = good, empty = {0};
  put_byte(&cut, 99);
  for (size_t size = 0; size < 39; size++) {
    one_row(&good, 0, size, 9, 0, "a good order");
    one_row(&cut, 10, size, 9, 0, "a cut order");
  }
  for (size_t size = 0; size < 39; size++) {
    one_page(&good, 1, size, 9, 0, "a good order");
    one_piece(&good, 1, 10, size, 9, 0, "a row that the page lacks");
    one_page(&cut, 0, size, 9, 0, "a cut order");
  }
  static const uint32_t beyond[] = {10, 11, 255, 256, 65536, 0x80000000u, UINT32_MAX};
  for (size_t i = 0; i < sizeof beyond / sizeof *beyond; i++) one_row(&good, beyond[i], 39, 5, 3, "a row that the order lacks");
  /* 25 * (page - 1) passes 2^32 at page 171,798,693. */
  static const uint32_t lacking[] = {0, 2, 3, 256, 171798692, 171798693, 171798694, 0x80000001u, UINT32_MAX};
  for (size_t i = 0; i < sizeof lacking / sizeof *lacking; i++) one_page(&good, lacking[i], PAGE_LENGTH, 5, 3, "a page that the order lacks");
  for (size_t i = 0; i < sizeof beyond / sizeof *beyond; i++) one_piece(&good, 1, beyond[i], 39, 5, 3, "a row that the page lacks");
  one_row(&cut, 10, 39, 1, 46, "the order before the row");
  one_page(&cut, 0, PAGE_LENGTH, 1, 46, "the order before the page");
  one_row(&empty, 0, 39, 4, 1, "an empty order");
  one_page(&empty, 1, PAGE_LENGTH, 4, 1, "an empty order");
  static const struct { uint8_t without, tag, parts[5], number; } maps[] = {{0, 18, {0}, 15}, {0, 19, {0}, 15}, {4, 18, {0, 91}, 5}, {5, 19, {2}, 5}};
  for (size_t i = 0; i < sizeof maps / sizeof *maps; i++) {
    order_bytes order = without(&good, maps[i].without);
    put_map(&order, maps[i].tag, maps[i].parts);
    one_row(&order, 10, 39, maps[i].number, maps[i].tag, "a refused coordinate as on the map");
    one_page(&order, 0, PAGE_LENGTH, maps[i].number, maps[i].tag, "a refused coordinate as on the map");
  }
  katchidul_cells row = katchidul_write_cells(NULL, 0, 0, NULL, 0), page = katchidul_write_page(NULL, 0, 1, 0, NULL, 0);
  check(cells_refused(&row, 9, 0) && cells_refused(&page, 9, 0), "null pointers of no length");
}

static void check_sizes(const order_bytes *order, const char *what) {
  static const size_t sizes[] = {39, 40, 77, 78, 119, 1000, BUFFER_MOST}, scratches[] = {39, 77, 78, 974, 975, 976, 1000, 1013, 1014, BUFFER_MOST};
  for (uint32_t row = 0; row < 10; row++)
    for (size_t i = 0; i < sizeof sizes / sizeof *sizes; i++) one_row(order, row, sizes[i], 0, 0, what);
  for (size_t i = 0; i < sizeof scratches / sizeof *scratches; i++) one_page(order, 1, scratches[i], 0, 0, what);
}

/* All pages of orders with every number of rows on the last one, on days that are refused and not, and at both ends of the clock. */
static void check_pages(void) {
  for (uint32_t rows = 1; rows <= 51; rows++) {
    order_bytes order = place_order("A", 2026, 5, 20, (uint16_t)rows, rows % 2 ? 66.5 : -33.25, rows % 3 ? -66.7 : 151.0, (uint8_t)(rows % 13));
    if (rows % 5 != 0) put_clock(&order, (int16_t)(rows % 5 == 1 ? -840 : rows % 5 == 2 ? 840 : 7 * (int)rows - 180));
    uint32_t pages = (rows + 24) / 25;
    for (uint32_t page = 1; page <= pages; page++) one_page(&order, page, PAGE_LENGTH, 0, 0, "an order by its rows");
    one_page(&order, pages + 1, PAGE_LENGTH, 5, 3, "the page behind the last");
    uint32_t last = rows - 25 * (pages - 1);
    for (uint32_t first = 0; first < last; first++) one_piece(&order, pages, first, 39 + 13 * first, 0, 0, "the last page from each row");
    one_piece(&order, pages, last, 39, 5, 3, "the row behind the page's last");
    if (pages > 1) one_piece(&order, 1, 25, PAGE_LENGTH, 5, 3, "row 25 of a page with a page behind it");
  }
}

/* Known cells: the Pole's one row shows its day alone; row 0 of town P, 10.0, 20.0 on 2026-06-21 with fourteen hours shows Isha 08:16. */
static void check_known(void) {
  static const uint8_t pole[39] = {0x3c, 0x03, 0x01}, isha[6] = {0x00, 0x3c, 0x1a, 0x13, 0x01, 0x0b};
  order_bytes order = place_order("Pole", 2026, 6, 21, 1, 90, 0, 0);
  uint8_t cells[39];
  katchidul_cells answer = katchidul_write_cells(order.bytes, order.length, 0, cells, sizeof cells);
  check(answer.number == 0 && answer.rows == 1 && answer.dots == 7 && memcmp(cells, pole, 39) == 0, "the Pole's row has its day and 36 blanks");
  order = place_order("P", 2026, 6, 21, 1, 10, 20, 0);
  put_clock(&order, 840);
  answer = katchidul_write_cells(order.bytes, order.length, 0, cells, sizeof cells);
  check(answer.number == 0 && memcmp(cells, pole, 3) == 0 && memcmp(cells + 33, isha, 6) == 0, "840 minutes later it is still the row's own day");
}

void check_cells(void) {
  order_bytes good = good_order(), full = full_order(), before = place_order("A", 1967, 12, 25, 10, 51.5, -0.125, 5);
  check_order_of_checks();
  check_sizes(&good, "the good order");
  check_sizes(&full, "the full order");
  check_sizes(&before, "an order before 1970");
  check_pages();
  check_known();
}
