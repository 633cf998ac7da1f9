/* A message of the host: one line, and for a job its order, for a page its cells. host/link.h has them all. */
#ifndef MESSAGE_H
#define MESSAGE_H

#include <stddef.h>
#include <stdint.h>

#define ROW_CELLS 39
#define PAGE_ROWS_MAX 25
#define PAGES_MAX 16
#define ID_MAX 65535
#define ORDER_MAX 1024
#define NAME_BYTES 64 /* of a spool's name */
#define LINE_BYTES 256
#define MESSAGE_BYTES (LINE_BYTES + ORDER_MAX) /* the longest one */

typedef enum { UNFINISHED, NO_MESSAGE, SPOOL, RESTART, JOB, PAGE } message_kind;

typedef struct {
  message_kind kind;
  size_t length; /* of the whole message */
  uint32_t id, page;
  char name[NAME_BYTES + 1]; /* the spool's */
} message;

/* The message at the front of some bytes. UNFINISHED: more bytes are needed. */
message message_from(const char *bytes, size_t length);

#endif
