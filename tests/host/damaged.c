/* Random and damaged orders through every call. The numbers come from a fixed seed, so a failure comes again. */
#include <stdio.h>
#include <string.h>

#include "host.h"

#define NUMBERS 19 /* one more than the last refusal */

static uint64_t state;

static uint64_t draw(void) {
  state ^= state << 13;
  state ^= state >> 7;
  state ^= state << 17;
  return state;
}

static uint64_t below(uint64_t end) { return (draw() >> 11) % end; }

static double between(double low, double high) { return low + (high - low) * ((double)(draw() >> 11) / 9007199254740992.0); }

static void put_options(order_bytes *order) {
  int16_t minutes[6];
  for (int i = 0; i < 6; i++) minutes[i] = (int16_t)((int)below(1441) - 720);
  if (below(2)) put_small(order, 7, (uint8_t)(1 + below(2)));
  for (uint8_t tag = 8; tag <= 10; tag++)
    if (below(2)) put_small(order, tag, (uint8_t)below(3));
  if (below(2)) put_minutes(order, minutes);
  for (uint8_t tag = 12; tag <= 13; tag++)
    if (below(2)) put_float(order, tag, between(0, 30));
  if (below(2)) put_interval(order, (uint16_t)below(1441));
  if (below(2)) put_clock(order, (int16_t)((int)below(1681) - 840));
  for (uint8_t tag = 15; tag <= 17; tag += 2)
    if (below(2)) put_small(order, tag, (uint8_t)below(2));
}

/* A coordinate of an order as on the map, somewhere there, in place of its float; now and then beside it. */
static void put_on_map(order_bytes *order, uint8_t tag, uint64_t most) {
  if (below(3)) return;
  if (below(16)) *order = without(order, (uint8_t)(tag - 14));
  put_map(order, tag, (uint8_t[]){(uint8_t)below(2), (uint8_t)below(most), (uint8_t)below(60), (uint8_t)below(60), (uint8_t)below(100)});
}

static order_bytes sound_order(void) {
  char town[41] = {0};
  for (uint64_t i = 0, length = 1 + below(40); i < length; i++) town[i] = (char)(32 + below(95));
  /* Some polar places, and some where the transit is near midnight: without them 6 and 7 would be rare. */
  double latitude = below(4) ? between(-66, 66) : between(-90, 90);
  double longitude = below(8) ? between(-180, 180) : between(-180, -175);
  order_bytes order = place_order(town, (uint16_t)(1900 + below(300)), (uint8_t)(1 + below(12)), (uint8_t)(1 + below(28)),
                                  (uint8_t)(1 + below(31)), latitude, longitude, (uint8_t)below(13));
  put_options(&order);
  put_on_map(&order, 18, 66), put_on_map(&order, 19, 180);
  if (below(8)) return order;
  return ramadan_sheet(&order, (uint32_t)(1317 + below(310)), (uint8_t)below(31), (uint8_t)below(3));
}

/* Makes room for bytes at an offset; bytes that would pass the end are lost. */
static void insert(order_bytes *order, size_t at, const uint8_t *bytes, size_t count) {
  if (order->length + count > ORDER_ROOM) return;
  memmove(order->bytes + at + count, order->bytes + at, order->length - at);
  memcpy(order->bytes + at, bytes, count);
  order->length += count;
}

static void damage(order_bytes *order) {
  uint8_t part[64], byte = (uint8_t)draw();
  size_t at = below(order->length + 1), left = order->length - at;
  size_t count = below(left < sizeof part ? left + 1 : sizeof part);
  switch (below(6)) {
    case 0: if (left > 0) order->bytes[at] = byte; break;
    case 1: if (left > 0) order->bytes[at] ^= (uint8_t)(1u << below(8)); break;
    case 2: order->length = at; break;
    case 3: insert(order, at, &byte, 1); break;
    case 4: /* a part again, somewhere */
      memcpy(part, order->bytes + at, count);
      insert(order, below(order->length + 1), part, count);
      break;
    default: /* a part away */
      memmove(order->bytes + at, order->bytes + at + count, left - count);
      order->length -= count;
  }
}

static order_bytes random_bytes(void) {
  order_bytes order = {0};
  size_t length = below(16) ? below(64) : below(1100);
  bool low = below(2);
  while (order.length < length) put_byte(&order, (uint8_t)(low ? below(16) : draw()));
  return order;
}

static order_bytes any_order(void) {
  uint64_t kind = below(8);
  if (kind == 0) return random_bytes();
  order_bytes order = sound_order();
  for (uint64_t i = 0, times = kind < 3 ? 0 : 1 + below(3); i < times; i++) damage(&order);
  return order;
}

/* An instant near the day's times if it has times, else anywhere; sometimes beyond the ends. */
static int64_t any_instant(const katchidul_order *order, uint32_t row) {
  if (order->number == 0 && below(8)) {
    return (days_to(order->year, order->month, order->day) + row) * 86400 + (int64_t)below(4 * 86400) - 86400;
  }
  return below(8) == 0 ? (int64_t)draw() : (int64_t)below(UINT64_C(2000000000003)) - INT64_C(1000000000001);
}

void check_damaged(uint32_t orders) {
  uint32_t numbers[NUMBERS] = {0};
  char what[64];
  state = UINT64_C(0x9e3779b97f4a7c15);
  for (uint32_t i = 0; i < orders; i++) {
    order_bytes order = any_order();
    katchidul_order read = katchidul_read_order(order.bytes, order.length);
    uint32_t row = below(16) ? (uint32_t)below(read.number == 0 ? read.rows : 4) : (uint32_t)draw();
    int64_t seconds = any_instant(&read, row);
    uint32_t nanoseconds = below(4) ? (uint32_t)below(1000000000) : (uint32_t)(draw() & (below(2) ? 1 : UINT32_MAX));
    answers all = ask(&order, row, seconds, nanoseconds);
    snprintf(what, sizeof what, "order %u of the random and damaged ones", i);
    check(answers_agree(&all, row, seconds, nanoseconds), what);
    check(written_agrees(&order, below(4) ? BUFFER_MOST : below(200)), what);
    if (below(4) == 0) check(written_answers_alike(&order, &all, row, seconds, nanoseconds), what);
    if (below(8) == 0) {
      numbers[9]++;
      check(row_unwritten(&order, row, below(ROW_LENGTH), 9, 0), what);
    }
    if (below(16) == 0) check(page_agrees(&order, row / 25 + 1, (uint32_t)below(below(4) ? 1 : 27), below(4) ? PAGE_LENGTH + below(100) : below(1100)), what);
    if (all.day.number < NUMBERS) numbers[all.day.number]++;
    if (all.next.number >= 10 && all.next.number < 12) numbers[all.next.number]++;
  }
  printf("host: random and damaged orders by number:");
  for (uint32_t number = 0; number < NUMBERS; number++) {
    if ((number >= 12 && number < 15) || number == 16 || number == 17) continue; /* no order's */
    printf(" %u: %u", number, numbers[number]);
    /* 6 and 8 are rare: a few thousand orders may miss them. */
    check(numbers[number] > 0 || orders < 40000, "the random and damaged orders meet every number");
  }
  printf("\n");
}
