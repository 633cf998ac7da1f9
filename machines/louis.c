/* Text to cells by liblouis. The table must have six dots a cell, as the pages do. */
#include "driver.h"

#include <liblouis/liblouis.h>
#include <stdlib.h>
#include <string.h>

#define TEXT_MAX 512
#define CELLS_MAX (8 * TEXT_MAX)

static const char *table;

static void be_silent(logLevels level, const char *message) { (void)level, (void)message; }

/* Tries every byte that a cover can have. If the table lacks one, or gives it eight dots, it is refused before any page goes out. */
static bool table_serves(void) {
  char all[96];
  uint8_t cells[CELLS_MAX];
  for (char c = ' '; c <= '~'; c++) all[c - ' '] = c;
  all[95] = '\0';
  return braille(all, cells, sizeof cells) > 0;
}

void braille_open(const char *name) {
  table = name;
  lou_registerLogCallback(be_silent);
  if (lou_getTable(name) == NULL) stop(name, "liblouis has no such table; its Debian package is liblouis-data");
  if (!table_serves()) stop(name, "this table does not put English text into cells of six dots");
}

/* Returns how many cells the text has, or 0 if the table cannot set it or `size` is too small. */
size_t braille(const char *text, uint8_t *cells, size_t size) {
  widechar from[TEXT_MAX], to[CELLS_MAX];
  int length = (int)strlen(text), made = CELLS_MAX;
  if (length > TEXT_MAX) return 0;
  for (int i = 0; i < length; i++) from[i] = (unsigned char)text[i];
  if (!lou_translateString(table, from, &length, to, &made, NULL, NULL, dotsIO | ucBrl | noUndefined)) return 0;
  if ((size_t)length != strlen(text) || made < 1 || (size_t)made > size) return 0;
  for (int i = 0; i < made; i++) {
    if ((to[i] & ~(widechar)0x3f) != 0x2800) return 0;
    cells[i] = (uint8_t)(to[i] & 0x3f);
  }
  return (size_t)made;
}
