/* The link to the embosser, or to its driver: a socket on this machine. A message is a line of at most 256 bytes.

       host       spool NAME            the spool's name, first on every link; answered by
       embosser   serves NAME           the spool that it serves
       host       restart ID            drop this job's unfinished pages; answered by
       embosser   count ID PAGES        PAGES of its pages are finished, for good
       host       job ID BYTES FILE     and the order's bytes, before the job's first page on this link
       host       page ID PAGE ROWS     and the cells of ROWS rows; answered by
       embosser   done ID PAGE          this page and the job's pages before it are finished
       embosser   says TEXT             a sentence for the operator

   Each answer has one deadline. After LINK_LOST the host must ask again what the embosser has finished. */
#ifndef LINK_H
#define LINK_H

#include <stddef.h>
#include <stdint.h>

#include "job.h"
#include "spool.h"
#include "wait.h"

#define LINE_BYTES 256

typedef struct {
  int socket;
  size_t held; /* bytes of `bytes` that came and are not read */
  char bytes[LINE_BYTES];
  int patience; /* milliseconds that an answer may take */
  text lost;    /* why the link was lost */
} embosser;

typedef enum { SERVES, COUNT, DONE } answer_kind;

typedef struct {
  answer_kind kind;
  uint32_t id, number;
  char name[SPOOL_NAME_MAX + 1];
} answer;

/* Returns false and sets errno if there is no embosser. */
bool link_open(embosser *e, const char *path);
void link_close(embosser *e);

/* GOES_ON or LINK_LOST. */
course link_begin(embosser *e, const char *spool_name);
course link_ask_count(embosser *e, uint32_t id);
course link_send_order(embosser *e, const job *j);
course link_send_page(embosser *e, uint32_t id, uint32_t page, const uint8_t *cells, uint32_t rows);

/* The next answer. A sentence for the operator that comes before it is said at once, and does not move the deadline. */
course link_hear(embosser *e, moment end, answer *a);

/* Notes why the link is lost, and returns LINK_LOST. */
__attribute__((format(printf, 2, 3))) course link_lost(embosser *e, const char *format, ...);

#endif
