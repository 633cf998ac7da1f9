/* Calls on several threads at once, on the same orders: each answer is the one that a single thread got, every byte of it. */
#include <pthread.h>
#include <stdio.h>
#include <string.h>

#include "host.h"

#define THREADS 8
#define ROUNDS 40
#define ORDERS 6
#define ROWS 10

typedef struct {
  katchidul_order order;
  katchidul_day day;
  katchidul_prayer prayer, next;
  katchidul_remaining remaining;
  katchidul_reply written;
  uint8_t line[ROW_LENGTH];
  katchidul_cells cells, page;
  uint8_t row_cells[39], page_cells[PAGE_LENGTH];
} called;

static order_bytes orders[ORDERS];
static called alone[ORDERS][ROWS];

static void call_all(const order_bytes *order, uint32_t row, called *all) {
  const uint8_t *bytes = order->bytes;
  size_t length = order->length;
  memset(all, 0, sizeof *all);
  all->order = katchidul_read_order(bytes, length);
  all->day = katchidul_work_day(bytes, length, row);
  int64_t noon = all->day.times[2];
  all->prayer = katchidul_prayer_at(bytes, length, row, noon, row);
  all->next = katchidul_next_at(bytes, length, row, noon, row);
  all->remaining = katchidul_remaining_at(bytes, length, row, noon, row);
  all->written = katchidul_write_row(bytes, length, row, all->line, sizeof all->line);
  all->cells = katchidul_write_cells(bytes, length, row, all->row_cells, sizeof all->row_cells);
  all->page = katchidul_write_page(bytes, length, 1, 0, all->page_cells, sizeof all->page_cells);
}

/* Each thread begins elsewhere in the list, so that different orders are worked at the same moment. Returns NULL if all was the same. */
static void *run(void *from) {
  size_t first = (size_t)from;
  called all;
  for (size_t i = 0; i < ROUNDS * ORDERS * ROWS; i++) {
    size_t at = (i * 7 + first) % (ORDERS * ROWS);
    call_all(&orders[at / ROWS], (uint32_t)(at % ROWS), &all);
    if (memcmp(&all, &alone[at / ROWS][at % ROWS], sizeof all) != 0) return orders;
  }
  return NULL;
}

void check_threads(void) {
  pthread_t threads[THREADS];
  void *differs;
  orders[0] = good_order(), orders[1] = full_order(), orders[2] = place_order("Pole", 2026, 6, 21, 1, 90, 0, 0);
  orders[3] = place_order("Oslo", 2026, 12, 25, 10, 59.9, 10.7, 5), orders[4] = place_order("Sea", 2026, 6, 21, 10, 40, -66.7, 0);
  orders[5] = good_order(), put_byte(&orders[5], 99);
  for (size_t at = 0; at < ORDERS * ROWS; at++) call_all(&orders[at / ROWS], (uint32_t)(at % ROWS), &alone[at / ROWS][at % ROWS]);
  for (size_t i = 0; i < THREADS; i++)
    if (pthread_create(&threads[i], NULL, run, (void *)(i * 11)) != 0) threads[i] = pthread_self();
  for (size_t i = 0; i < THREADS; i++) {
    bool ended = !pthread_equal(threads[i], pthread_self()) && pthread_join(threads[i], &differs) == 0;
    check(ended && differs == NULL, "a thread gets what a single one got");
  }
}
