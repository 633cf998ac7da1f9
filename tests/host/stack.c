/* How many bytes of stack a call takes: the stack below the caller is painted, and after the call the deepest byte that has changed is
   looked for. It runs on a thread of its own, whose stack is mapped from the start. */
#include <pthread.h>
#include <stdio.h>

#include "host.h"

#define PAINTED (64 * 1024)
#define OWN_FRAME 512 /* more than the painting function's own part */
#define PAINT 0xA5
#define STACK_MOST 4096 /* the header's promise */
#define CALLS 19
/* With the sanitizers no two results share their place on the stack, so the caller's frame, which is counted too, is larger. */
#ifdef __SANITIZE_ADDRESS__
#define SANITIZED true
#else
#define SANITIZED false
#endif

static volatile uint8_t *caller;
static uint8_t page[PAGE_LENGTH];
static uint8_t logs[2][10] = {{1, 0, 2, 0, 1, 1, 0, 2, 0, 2}};
static katchidul_order numbers;
static const katchidul_queue queues[2] = {{0}, {15, {20, 21, 22, 23, 24, 25, 26, 27, 28, 29, 30, 31, 32, 33, 34}, {2}}};

/* One call by its place in the header, counted from this function's frame on. */
__attribute__((noinline)) static void call(int which, const order_bytes *order, uint32_t row, int64_t seconds, uint8_t *line) {
  const uint8_t *bytes = order->bytes;
  size_t length = order->length;
  caller = __builtin_frame_address(0);
  switch (which) {
    case 0: katchidul_read_order(bytes, length); break;
    case 1: katchidul_work_day(bytes, length, row); break;
    case 2: katchidul_prayer_at(bytes, length, row, seconds, 0); break;
    case 3: katchidul_next_at(bytes, length, row, seconds, 0); break;
    case 4: katchidul_remaining_at(bytes, length, row, seconds, 0); break;
    case 5: katchidul_write_row(bytes, length, row, line, ROW_LENGTH); break;
    case 6: katchidul_join(queues[row % 2], row, 1 + row % 2); break;
    case 7: katchidul_turn(queues[row % 2]); break;
    case 8: katchidul_write_sentence(1 + row, (uint32_t)seconds, line, ROW_LENGTH); break;
    case 9: katchidul_read_log(logs[0], sizeof *logs, row); break;
    case 10: katchidul_append(logs[0], sizeof *logs, 5 * (row % 3), 1 + row % 2, row, logs[1], sizeof *logs); break;
    case 11: katchidul_restart(logs[0], sizeof *logs, 5 * (row % 3), row % 4, logs[1], sizeof *logs); break;
    case 12: katchidul_read_sentence(line, ROW_LENGTH); break;
    case 13: katchidul_write_cells(bytes, length, row, line, ROW_LENGTH); break;
    case 14: katchidul_map_latitude((double)row); break;
    case 15: katchidul_map_longitude((double)seconds); break;
    case 16: katchidul_write_order(numbers, bytes, numbers.town_length, page, sizeof page); break;
    case 17: katchidul_version(); break;
    default: katchidul_write_page(bytes, length, 1, 0, page, sizeof page);
  }
}

/* Between painting and looking nothing is called but what is measured. */
__attribute__((noinline, no_sanitize_address)) static size_t used_by(int which, const order_bytes *order, uint32_t row, int64_t seconds,
                                                                     uint8_t *line) {
  volatile uint8_t *frame = __builtin_frame_address(0), *at = frame - PAINTED;
  for (volatile uint8_t *paint = at; paint < frame - OWN_FRAME; paint++) *paint = PAINT;
  call(which, order, row, seconds, line);
  while (at < frame && *at == PAINT) at++;
  return (size_t)(caller - at);
}

/* Orders from all over the earth, with each method and on good and refused days; some with every tag, some damaged. */
static order_bytes some_order(uint32_t i) {
  order_bytes order = i % 3 == 0 ? full_order()
                                 : place_order("A", (uint16_t)(1900 + i % 300), (uint8_t)(1 + i % 12), 15, 10, -90 + 0.45 * i, 180 - 0.9 * i,
                                               (uint8_t)(i % 13));
  if (i % 7 == 0) put_byte(&order, (uint8_t)i);
  return order;
}

static void *measure(void *given) {
  size_t *most = given;
  uint8_t line[ROW_LENGTH] = {0};
  for (uint32_t i = 0; i < 400; i++) {
    order_bytes order = some_order(i);
    numbers = katchidul_read_order(order.bytes, order.length);
    int64_t seconds = katchidul_work_day(order.bytes, order.length, i % 11).times[i % 9];
    for (int which = 0; which < CALLS; which++) {
      size_t used = used_by(which, &order, i % 11, seconds, line);
      if (used > *most) *most = used;
    }
  }
  return NULL;
}

/* Under the sanitizers the library's memcpy and memset are theirs, which take stack of their own: the promise is held to without them. */
#ifdef __SANITIZE_ADDRESS__
void check_stack(void) { (void)measure; }
#else
void check_stack(void) {
  pthread_t thread;
  size_t most = 0;
  bool ended = pthread_create(&thread, NULL, measure, &most) == 0 && pthread_join(thread, NULL) == 0;
  printf("host: a call takes up to %zu bytes of stack\n", most);
  check(ended && most > OWN_FRAME && (SANITIZED || most < STACK_MOST), "a call takes less stack than the header says");
}
#endif
