/* What the stand-in keeps: the file of punched pages, and beside it, in FILE.serves, the spool that it serves. A page is in the file as it
   came: a line, page ID PAGE ROWS, and its cells. */
#ifndef PUNCHED_H
#define PUNCHED_H

#include <stdbool.h>

#include "message.h"

typedef struct {
  uint32_t id, page;
  size_t length; /* of the bytes */
  char bytes[LINE_BYTES + PAGE_ROWS_MAX * ROW_CELLS];
} sheet;

/* Opens the file and counts its pages. A page that is cut at the end is dropped. */
bool punched_open(const char *name);

/* Appends a page. The page is finished when this returns, and not before. */
bool punched_append(const sheet *s);

uint32_t punched_count(uint32_t id);

/* The spool that is served: the first that asked, for good. Returns false if its name cannot be written or read. */
bool punched_serves(const char *asking, char name[NAME_BYTES + 1]);

#endif
