/* The orders that the host has sent on this link. If there is no room, the oldest is forgotten: the host has far fewer in work. If it
   sends a page of a forgotten job, it loses its link, starts again and sends the order again. */
#include "driver.h"

#include <string.h>

#define ORDERS 64

static order orders[ORDERS];
static size_t next;

const order *order_find(uint32_t id) {
  for (size_t i = 0; i < ORDERS; i++)
    if (orders[i].id == id) return &orders[i];
  return NULL;
}

/* Returns false if the library refuses the order. */
bool order_keep(uint32_t id, const char *file, const uint8_t *bytes, size_t length) {
  katchidul_order asks = katchidul_read_order(bytes, length);
  if (asks.number != 0) return false;
  order *o = (order *)order_find(id);
  if (o == NULL) o = &orders[next], next = (next + 1) % ORDERS;
  memset(o, 0, sizeof *o);
  o->id = id;
  o->asks = asks;
  snprintf(o->file, sizeof o->file, "%s", file);
  memcpy(o->town, bytes + asks.town_at, asks.town_length);
  return true;
}

void orders_forget(void) { memset(orders, 0, sizeof orders); }

uint32_t order_pages(const order *o) { return (o->asks.rows + KATCHIDUL_PAGE_ROWS - 1) / KATCHIDUL_PAGE_ROWS; }

/* The rows of a page, or 0 if the order lacks the page. */
uint32_t order_page_rows(const order *o, uint32_t page) {
  if (page < 1 || page > order_pages(o)) return 0;
  uint32_t left = o->asks.rows - (page - 1) * KATCHIDUL_PAGE_ROWS;
  return left < KATCHIDUL_PAGE_ROWS ? left : KATCHIDUL_PAGE_ROWS;
}
