/* What the files of the host share: orders built field by field, every call asked on lent bytes, and the count of checks. */
#ifndef HOST_H
#define HOST_H

#include <stdbool.h>
#include <stddef.h>
#include <stdint.h>

#include "katchidul.h"

#define ORDER_ROOM 2048
#define ROW_LENGTH 119
#define RAMADAN_LENGTH 131
#define PAGE_LENGTH 975
#define BUFFER_MOST 4096

typedef struct {
  size_t length;
  uint8_t bytes[ORDER_ROOM];
} order_bytes;

/* orders.c: each function puts one field, or raw bytes, at the end of an order. */
void put_byte(order_bytes *order, uint8_t byte);
void put_header(order_bytes *order, uint8_t tag, uint16_t length);
void put_town(order_bytes *order, const char *town);
void put_date(order_bytes *order, uint16_t year, uint8_t month, uint8_t day);
void put_small(order_bytes *order, uint8_t tag, uint8_t value);
void put_bits(order_bytes *order, uint8_t tag, uint64_t bits);
void put_float(order_bytes *order, uint8_t tag, double value);
void put_minutes(order_bytes *order, const int16_t minutes[6]);
void put_interval(order_bytes *order, uint16_t minutes);
void put_clock(order_bytes *order, int16_t minutes);
/* Sign, degrees, minutes, seconds and hundredths. */
void put_map(order_bytes *order, uint8_t tag, const uint8_t parts[5]);
/* The number of rows, in this many bytes. */
void put_rows(order_bytes *order, uint16_t rows, uint16_t size);
/* Minutes from imsak to Fajr, and the shift as it is stored. */
void put_ramadan(order_bytes *order, uint8_t imsak, uint8_t stored);
/* The last tag of the table. */
#define LAST_TAG 20

/* The six fields that an order must have, in order of their tags. Rows in one byte up to 255, in two above it. */
order_bytes place_order(const char *town, uint16_t year, uint8_t month, uint8_t day, uint16_t rows, double latitude,
                        double longitude, uint8_t method);
/* Makkah, 2026-06-21, 10 rows, method 0: 46 bytes, the town at 3. */
order_bytes good_order(void);
/* The good order with a field of every tag, its place as floats. */
order_bytes full_order(void);
/* An order without the field of one tag. */
order_bytes without(const order_bytes *order, uint8_t tag);

/* ask.c: every call on one order, one row and one instant. */
typedef struct {
  katchidul_order order;
  katchidul_day day;
  katchidul_prayer prayer, next;
  katchidul_remaining remaining;
  katchidul_reply written;
  bool line_right; /* the buffer begins with the row's line, or the row is refused; every other byte of it and around it is as before */
  katchidul_cells cells;
  bool cells_right; /* the same of the row's cells, which are not refused for its day */
  bool lent_kept;  /* every byte of the order and every byte around it is as before, after each call */
} answers;

bool ask_start(void);
/* Lends an order's bytes until the next order is lent. */
const uint8_t *lend(const order_bytes *order);
bool order_kept(const order_bytes *order, const uint8_t *lent);
answers ask(const order_bytes *order, uint32_t row, int64_t seconds, uint32_t nanoseconds);
bool order_refused(const katchidul_order *answer, uint32_t number, uint32_t place);
bool day_refused(const katchidul_day *answer, uint32_t number, uint32_t place);
bool prayer_refused(const katchidul_prayer *answer, uint32_t number, uint32_t place);
bool remaining_refused(const katchidul_remaining *answer, uint32_t number, uint32_t place);
/* Writing the row gives this number and place, and the buffer is as they say. */
bool line_answered(const answers *all, uint32_t number, uint32_t place);
/* The same for its cells, which are written if this number is a day's. */
bool cells_answered(const answers *all, uint32_t number, uint32_t place);
/* The six calls on a row and its times give this number and place and nothing else, and so does its cells' call, unless it is a day's. */
bool row_refused(const answers *all, uint32_t number, uint32_t place);
/* The three calls on an instant give this number and place and nothing else. */
bool instant_refused(const answers *all, uint32_t number, uint32_t place);

/* ramadan.c: the day from 1970-01-01 on of an Islamic year's tabular 1 Ramadan; and an order with its date and rows made a Ramadan sheet's. */
int64_t first_of_ramadan(uint32_t year);
order_bytes ramadan_sheet(const order_bytes *order, uint32_t year, uint8_t imsak, uint8_t stored);

/* line.c: the line of a row that the order has, from what the other calls return. Times that no order has make a longer one. */
typedef struct {
  char text[512];
  size_t length;
} row_line;

row_line line_of(const katchidul_order *order, uint32_t row, const katchidul_day *day);

typedef struct {
  uint32_t year, month, day;
} row_date;

row_date date_of(const katchidul_order *order, uint32_t row);

/* buffer.c: a row asked into a lent buffer of up to BUFFER_MOST bytes. */
bool buffer_start(void);
katchidul_reply write_lent(const uint8_t *order, size_t length, uint32_t row, size_t size);
/* After write_lent: no byte has changed; or the line is at the buffer's front and no byte after it has changed. */
bool buffer_kept(void);
bool buffer_has(const row_line *line);
/* The whole of a call: its answer, its buffer, its order. */
bool row_written(const order_bytes *order, uint32_t row, size_t size, const row_line *line);
bool row_unwritten(const order_bytes *order, uint32_t row, size_t size, uint32_t number, uint32_t place);

/* buffer.c: a buffer of up to BUFFER_MOST bytes, lent until the next one is; and whether these bytes are at its front and no other byte has
   changed. */
uint8_t *lend_buffer(size_t size);
bool buffer_holds(const uint8_t *bytes, size_t count);

/* cells.c: the cells of a row that the order has, from what the other calls return. */
typedef struct {
  uint8_t cells[39];
} row_cells;

row_cells cells_of(const katchidul_order *order, uint32_t row, const katchidul_day *day);
uint32_t dots_in(const uint8_t *cells, size_t count);
bool cells_refused(const katchidul_cells *answer, uint32_t number, uint32_t place);
/* A whole call on a page, for any order, first row and scratch. */
bool page_agrees(const order_bytes *order, uint32_t page, uint32_t first, size_t size);

/* write_order.c: an order that is read, written again into a buffer of this many bytes; and what the calls return for it. */
bool written_agrees(const order_bytes *bytes, size_t size);
bool written_answers_alike(const order_bytes *bytes, const answers *all, uint32_t row, int64_t seconds, uint32_t nanoseconds);

/* sense.c: what is true of every result, for any order. */
bool answers_agree(const answers *all, uint32_t row, int64_t seconds, uint32_t nanoseconds);
/* The days from 1970-01-01 to a date. */
int64_t days_to(int64_t year, int64_t month, int64_t day);

/* host.c */
void check(bool holds, const char *what);

/* The parts of the run. */
void check_names(void);
void check_refusals(void);
void check_ranges(void);
void check_records(void);
void check_write_order(void);
void check_days(void);
void check_instants(void);
void check_lines(void);
void check_cells(void);
void check_pieces(const char *folder);
void check_sentences(void);
void check_map(void);
void check_ramadan(void);
void check_environment(void);
void check_threads(void);
void check_stack(void);
void check_stored(const char *path);
void check_damaged(uint32_t orders);
void check_queue(uint32_t calls);
void check_job_log(uint32_t calls);

#endif
