/* Orders written from a struct: compared with orders built field by field, read back, and given to every call again. */
#include <math.h>
#include <string.h>

#include "host.h"

#define WRITTEN_ROOM 200

static const uint8_t *town_in(const order_bytes *bytes, const katchidul_order *order) { return bytes->bytes + order->town_at; }

/* What the writer owes for a struct whose numbers fit their bytes: every field, by rising tag. */
static order_bytes owed(const katchidul_order *order, const uint8_t *town, size_t length) {
  char name[64] = {0};
  int16_t minutes[6];
  memcpy(name, town, length);
  for (int i = 0; i < 6; i++) minutes[i] = (int16_t)order->minutes[i];
  order_bytes bytes = {0};
  put_town(&bytes, name);
  put_date(&bytes, (uint16_t)order->year, (uint8_t)order->month, (uint8_t)order->day);
  put_rows(&bytes, (uint16_t)order->rows, order->rows <= 250 ? 1 : 2);
  put_float(&bytes, 4, order->latitude);
  put_float(&bytes, 5, order->longitude);
  put_small(&bytes, 6, (uint8_t)order->method);
  put_small(&bytes, 7, (uint8_t)order->madhab);
  put_small(&bytes, 8, (uint8_t)order->high_latitude_rule);
  put_small(&bytes, 9, (uint8_t)order->rounding);
  put_small(&bytes, 10, (uint8_t)order->shafaq);
  put_minutes(&bytes, minutes);
  put_float(&bytes, 12, order->fajr_angle);
  put_float(&bytes, 13, order->isha_angle);
  put_interval(&bytes, (uint16_t)order->isha_interval);
  put_small(&bytes, 15, (uint8_t)order->carry);
  put_clock(&bytes, (int16_t)order->clock);
  put_small(&bytes, 17, (uint8_t)order->southern);
  if (order->ramadan) put_ramadan(&bytes, (uint8_t)order->imsak, (uint8_t)(order->shift + 1));
  return bytes;
}

static bool refused_by(const katchidul_written *answer, uint32_t number, uint32_t place) {
  return answer->number == number && answer->place == place && answer->length == 0 && buffer_holds((const uint8_t *)"", 0);
}

/* The same struct, but for where the town is. */
static bool same_order(katchidul_order left, katchidul_order right) {
  left.town_at = right.town_at;
  return memcmp(&left, &right, sizeof left) == 0;
}

bool written_agrees(const order_bytes *bytes, size_t size) {
  katchidul_order order = katchidul_read_order(bytes->bytes, bytes->length);
  if (order.number != 0) return true;
  const uint8_t *town = town_in(bytes, &order);
  order_bytes due = owed(&order, town, order.town_length);
  uint8_t *buffer = lend_buffer(size);
  katchidul_written answer = katchidul_write_order(order, town, order.town_length, buffer, size);
  if (size < due.length) return refused_by(&answer, KATCHIDUL_BUFFER_SHORT, 0);
  if (answer.number != 0 || answer.place != 0 || answer.length != due.length || !buffer_holds(due.bytes, due.length)) return false;
  katchidul_order again = katchidul_read_order(buffer, answer.length);
  return answer.length <= KATCHIDUL_WRITTEN_MAX && again.town_at == 3 && same_order(again, order);
}

/* Every call returns the same for the written order as for the one that was read, for any form and order of its fields. */
bool written_answers_alike(const order_bytes *bytes, const answers *all, uint32_t row, int64_t seconds, uint32_t nanoseconds) {
  if (all->order.number != 0) return true;
  order_bytes other = {0};
  katchidul_written written =
      katchidul_write_order(all->order, town_in(bytes, &all->order), all->order.town_length, other.bytes, WRITTEN_ROOM);
  other.length = written.length;
  answers again = ask(&other, row, seconds, nanoseconds);
  return written.number == 0 && same_order(again.order, all->order) && memcmp(&again.day, &all->day, sizeof again.day) == 0 &&
         memcmp(&again.prayer, &all->prayer, sizeof again.prayer) == 0 && memcmp(&again.next, &all->next, sizeof again.next) == 0 &&
         memcmp(&again.remaining, &all->remaining, sizeof again.remaining) == 0 && again.line_right && again.cells_right &&
         memcmp(&again.written, &all->written, sizeof again.written) == 0 && memcmp(&again.cells, &all->cells, sizeof again.cells) == 0;
}

static katchidul_order read_good(order_bytes order) { return katchidul_read_order(order.bytes, order.length); }

static void refuses(katchidul_order order, const char *town, size_t length, uint32_t number, uint32_t place, const char *what) {
  uint8_t *buffer = lend_buffer(WRITTEN_ROOM);
  katchidul_written answer = katchidul_write_order(order, (const uint8_t *)town, length, buffer, WRITTEN_ROOM);
  check(refused_by(&answer, number, place), what);
  buffer = lend_buffer(0);
  answer = katchidul_write_order(order, (const uint8_t *)town, length, buffer, 0);
  check(refused_by(&answer, number, place), what); /* before the buffer is checked */
}

/* One field changed to what no order can say. */
#define REFUSES(change, place) \
  do { \
    katchidul_order order = read_good(good_order()); \
    change; \
    refuses(order, "Makkah", 6, KATCHIDUL_OUT_OF_RANGE, place, "writing refuses " #change); \
  } while (0)

static void check_unsayable(void) {
  REFUSES(order.year = 65536 + 2026, 2);
  REFUSES(order.month = 257, 2);
  REFUSES(order.day = 256 + 21, 2);
  REFUSES(order.rows = 0, 3);
  REFUSES(order.rows = 401, 3);
  REFUSES(order.rows = 65536 + 10, 3);
  REFUSES(order.latitude = -0.0, 4);
  REFUSES(order.latitude = NAN, 4);
  REFUSES(order.longitude = 180.00000000000003, 5);
  REFUSES(order.method = 13, 6);
  REFUSES(order.method = 256, 6);
  REFUSES(order.madhab = 0, 7);
  REFUSES(order.high_latitude_rule = 3, 8);
  REFUSES(order.rounding = UINT32_MAX, 9);
  REFUSES(order.shafaq = 258, 10);
  REFUSES(order.minutes[5] = 721, 11);
  REFUSES(order.minutes[0] = 65536 + 5, 11);
  REFUSES(order.minutes[3] = INT32_MIN, 11);
  REFUSES(order.fajr_angle = -0.0, 12);
  REFUSES(order.isha_angle = 30.5, 13);
  REFUSES(order.isha_interval = 65536 + 90, 14);
  REFUSES(order.carry = 2, 15);
  REFUSES(order.clock = 65536, 16);
  REFUSES(order.clock = -841, 16);
  REFUSES(order.southern = 256, 17);
  /* With tag 20 rows other than 30 are refused first. */
  REFUSES(order.ramadan = 2, 3);
  REFUSES((order.rows = 30, order.ramadan = 2), 20);
  REFUSES((order.rows = 30, order.imsak = 1), 20);
  REFUSES((order.rows = 30, order.shift = 1), 20);
  REFUSES((order.rows = 30, order.ramadan = 1, order.imsak = 256 + 10), 20);
  REFUSES((order.rows = 30, order.ramadan = 1, order.shift = 2), 20);
}

static void check_town_written(void) {
  katchidul_order order = read_good(good_order());
  char town[1000];
  memset(town, 'a', sizeof town);
  refuses(order, town, 0, KATCHIDUL_FIELD_UNKNOWN, 0, "writing refuses an empty town");
  refuses(order, town, 41, KATCHIDUL_FIELD_UNKNOWN, 0, "writing refuses a town of 41 bytes");
  refuses(order, town, sizeof town, KATCHIDUL_FIELD_UNKNOWN, 0, "writing refuses a town of 1,000 bytes");
  refuses(order, "Lyon\n", 5, KATCHIDUL_OUT_OF_RANGE, 1, "writing refuses a town with a newline");
  order.method = 99;
  refuses(order, "Lyon\n", 5, KATCHIDUL_OUT_OF_RANGE, 1, "writing refuses the lowest tag first");
}

void check_write_order(void) {
  order_bytes good = good_order(), full = full_order(), long_one = place_order("Oxford", 2026, 9, 1, 400, 51.752, -1.2577, 12);
  for (size_t size = 0; size <= WRITTEN_ROOM; size++) {
    check(written_agrees(&good, size), "the good order, written into a buffer of every length");
    check(written_agrees(&full, size), "the full order, written into a buffer of every length");
    check(written_agrees(&long_one, size), "an order of 400 rows, written into a buffer of every length");
  }
  check_unsayable();
  check_town_written();
  check(katchidul_version() == KATCHIDUL_VERSION, "the library has the header's version");
}
