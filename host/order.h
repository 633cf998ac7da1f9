/* An order's bytes and what the library makes of them. */
#ifndef ORDER_H
#define ORDER_H

#include <stddef.h>
#include <stdint.h>

#include "katchidul.h"
#include "say.h"

typedef struct {
  uint8_t bytes[KATCHIDUL_ORDER_MAX + 1]; /* one more than an order may have, so that a longer file is refused as one */
  size_t length;
} order;

uint32_t pages_of(const order *o);

/* The town's name; empty if the order is refused. */
text town_of(const order *o);

katchidul_cells page_cells(const order *o, uint32_t page, uint8_t cells[KATCHIDUL_PAGE_CELLS]);

/* The dots of the pages up to this one. */
uint32_t dots_through(const order *o, uint32_t page);

/* Says which days of the order are refused. Days that follow one another and are refused alike are in one line. */
void say_refused_days(const order *o, const char *about);

#endif
