/* Buffers to lend, and a row written into one. A buffer is in pages with a forbidden page on each side: at their start, between bytes that
   are not lent, or at their end, in turn. All those bytes, lent or not, differ from place to place and from call to call, and after the
   call each is compared with what it must be. */
#define _DEFAULT_SOURCE
#include <string.h>
#include <sys/mman.h>
#include <unistd.h>

#include "host.h"

static uint8_t *room, *expected;
static size_t room_size, buffer_at;

/* The pages to lend from. After the second forbidden page there are as many for the bytes that they must have. */
bool buffer_start(void) {
  size_t page = (size_t)sysconf(_SC_PAGESIZE);
  room_size = 2 * page;
  if (room_size < BUFFER_MOST + 128) return false;
  uint8_t *pages = mmap(NULL, 2 * (page + room_size), PROT_NONE, MAP_PRIVATE | MAP_ANONYMOUS, -1, 0);
  if (pages == MAP_FAILED) return false;
  room = pages + page;
  expected = room + room_size + page;
  return mprotect(room, room_size, PROT_READ | PROT_WRITE) == 0 && mprotect(expected, room_size, PROT_READ | PROT_WRITE) == 0;
}

uint8_t *lend_buffer(size_t size) {
  static uint32_t call;
  const size_t places[3] = {0, 64, room_size - size};
  call++;
  for (size_t i = 0; i < room_size; i++) expected[i] = (uint8_t)((i * 2654435761u + call * 40503u) >> 5);
  memcpy(room, expected, room_size);
  buffer_at = places[call % 3];
  return room + buffer_at;
}

katchidul_reply write_lent(const uint8_t *order, size_t length, uint32_t row, size_t size) {
  return katchidul_write_row(order, length, row, lend_buffer(size), size);
}

bool buffer_kept(void) { return memcmp(room, expected, room_size) == 0; }

bool buffer_holds(const uint8_t *bytes, size_t count) {
  memcpy(expected + buffer_at, bytes, count);
  return memcmp(room, expected, room_size) == 0;
}

bool buffer_has(const row_line *line) {
  return (line->length == ROW_LENGTH || line->length == RAMADAN_LENGTH) && buffer_holds((const uint8_t *)line->text, line->length);
}

bool row_written(const order_bytes *order, uint32_t row, size_t size, const row_line *line) {
  const uint8_t *lent = lend(order);
  katchidul_reply reply = write_lent(lent, order->length, row, size);
  return reply.number == 0 && reply.place == 0 && buffer_has(line) && order_kept(order, lent);
}

bool row_unwritten(const order_bytes *order, uint32_t row, size_t size, uint32_t number, uint32_t place) {
  const uint8_t *lent = lend(order);
  katchidul_reply reply = write_lent(lent, order->length, row, size);
  return reply.number == number && reply.place == place && buffer_kept() && order_kept(order, lent);
}
