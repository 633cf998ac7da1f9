/* A page as the machine takes it. BRF is North American ASCII braille: a line ends with carriage return and newline, a page with a form
   feed. Raw cells are the library's own bytes, 39 a row. The cells of the page itself are never changed. */
#include "driver.h"

#include <string.h>

static const char ascii[] = " A1B'K2L@CIF/MSP\"E3H9O6R^DJG>NTQ,*5<-U8V.%[$+X!&;:4\\0Z7(_?W]#Y)=";

static void put(sheet *s, const void *bytes, size_t length) {
  memcpy(s->bytes + s->length, bytes, length);
  s->length += length;
}

static void put_line(sheet *s, const uint8_t *cells, size_t length) {
  for (size_t i = 0; i < length; i++) s->bytes[s->length++] = (uint8_t)ascii[cells[i] & 0x3f];
  put(s, "\r\n", 2);
}

/* The line without the blanks at its end, so that no machine wraps a full line. */
static void put_text(sheet *s, const uint8_t *cells, size_t length) {
  while (length > 0 && cells[length - 1] == 0) length--;
  put_line(s, cells, length);
}

/* A raw cover has as many rows as a page, since nothing else tells the machine where it ends. */
static void put_cover(const order *o, const paper *p, sheet *s) {
  cover c;
  cover_write(o, p, &c);
  for (uint32_t i = 0; i < (p->raw ? KATCHIDUL_PAGE_ROWS : c.count); i++) {
    if (p->raw) put(s, c.cells[i], KATCHIDUL_ROW_CELLS);
    else put_text(s, c.cells[i], p->width);
  }
  if (!p->raw) put(s, "\f", 1);
}

static void put_heading(const order *o, uint32_t page, const paper *p, sheet *s) {
  uint8_t cells[PAPER_MAX];
  heading_write(o, page, p, cells);
  put_text(s, cells, p->width);
  put(s, "\r\n", 2);
}

/* The cover is sent with page 1, so the log's pages are the order's pages. */
void sheet_write(const order *o, uint32_t page, uint32_t rows, const uint8_t *cells, const paper *p, sheet *s) {
  s->id = o->id;
  s->page = page;
  s->length = 0;
  strcpy(s->file, o->file);
  strcpy(s->town, o->town);
  if (page == 1) put_cover(o, p, s);
  if (p->raw) {
    put(s, cells, rows * KATCHIDUL_ROW_CELLS);
    return;
  }
  if (p->height >= KATCHIDUL_PAGE_ROWS + 2) put_heading(o, page, p, s);
  for (uint32_t row = 0; row < rows; row++) put_line(s, cells + row * KATCHIDUL_ROW_CELLS, KATCHIDUL_ROW_CELLS);
  put(s, "\f", 1);
}
