/* Orders, built field by field: tag, length in two bytes, value; numbers with the high byte first. */
#include <string.h>

#include "host.h"

void put_byte(order_bytes *order, uint8_t byte) {
  if (order->length < ORDER_ROOM) order->bytes[order->length++] = byte;
}

static void put_number(order_bytes *order, uint64_t value, unsigned width) {
  while (width-- > 0) put_byte(order, (uint8_t)(value >> (8 * width)));
}

void put_header(order_bytes *order, uint8_t tag, uint16_t length) {
  put_byte(order, tag);
  put_number(order, length, 2);
}

void put_town(order_bytes *order, const char *town) {
  put_header(order, 1, (uint16_t)strlen(town));
  while (*town != 0) put_byte(order, (uint8_t)*town++);
}

void put_date(order_bytes *order, uint16_t year, uint8_t month, uint8_t day) {
  put_header(order, 2, 4);
  put_number(order, year, 2);
  put_byte(order, month);
  put_byte(order, day);
}

void put_small(order_bytes *order, uint8_t tag, uint8_t value) {
  put_header(order, tag, 1);
  put_byte(order, value);
}

void put_bits(order_bytes *order, uint8_t tag, uint64_t bits) {
  put_header(order, tag, 8);
  put_number(order, bits, 8);
}

void put_float(order_bytes *order, uint8_t tag, double value) {
  uint64_t bits;
  memcpy(&bits, &value, sizeof bits);
  put_bits(order, tag, bits);
}

void put_minutes(order_bytes *order, const int16_t minutes[6]) {
  put_header(order, 11, 12);
  for (int i = 0; i < 6; i++) put_number(order, (uint16_t)minutes[i], 2);
}

void put_interval(order_bytes *order, uint16_t minutes) {
  put_header(order, 14, 2);
  put_number(order, minutes, 2);
}

void put_clock(order_bytes *order, int16_t minutes) {
  put_header(order, 16, 2);
  put_number(order, (uint16_t)minutes, 2);
}

void put_map(order_bytes *order, uint8_t tag, const uint8_t parts[5]) {
  put_header(order, tag, 5);
  for (int i = 0; i < 5; i++) put_byte(order, parts[i]);
}

void put_rows(order_bytes *order, uint16_t rows, uint16_t size) {
  put_header(order, 3, size);
  put_number(order, rows, size);
}

void put_ramadan(order_bytes *order, uint8_t imsak, uint8_t stored) {
  put_header(order, 20, 2);
  put_byte(order, imsak);
  put_byte(order, stored);
}

order_bytes place_order(const char *town, uint16_t year, uint8_t month, uint8_t day, uint16_t rows, double latitude,
                        double longitude, uint8_t method) {
  order_bytes order = {0};
  put_town(&order, town);
  put_date(&order, year, month, day);
  put_rows(&order, rows, rows < 256 ? 1 : 2);
  put_float(&order, 4, latitude);
  put_float(&order, 5, longitude);
  put_small(&order, 6, method);
  return order;
}

order_bytes good_order(void) { return place_order("Makkah", 2026, 6, 21, 10, 21.4225, 39.8262, 0); }

order_bytes full_order(void) {
  static const int16_t minutes[6] = {-720, -1, 0, 1, 2, 720};
  order_bytes order = good_order();
  put_small(&order, 7, 2);
  put_small(&order, 8, 1);
  put_small(&order, 9, 2);
  put_small(&order, 10, 2);
  put_minutes(&order, minutes);
  put_float(&order, 12, 19.5);
  put_float(&order, 13, 16.25);
  put_interval(&order, 75);
  put_small(&order, 15, 1);
  put_clock(&order, -345);
  put_small(&order, 17, 1);
  return order;
}

order_bytes without(const order_bytes *order, uint8_t tag) {
  order_bytes rest = {0};
  size_t at = 0;
  while (at + 3 <= order->length) {
    size_t end = at + 3 + (size_t)order->bytes[at + 1] * 256 + order->bytes[at + 2];
    for (size_t i = at; i < end && order->bytes[at] != tag; i++) put_byte(&rest, order->bytes[i]);
    at = end;
  }
  return rest;
}
