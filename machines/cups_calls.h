/* What katchidul-cups asks of CUPS. Each call is one request, with a limit on its time. */
#ifndef CUPS_CALLS_H
#define CUPS_CALLS_H

#include "driver.h"

#define TITLE_BYTES 160
#define WORDS_BYTES 160

/* A job of CUPS. */
typedef struct {
  uint32_t number;
  char title[TITLE_BYTES];
  int state;                /* an ipp_jstate_t */
  bool begun;               /* CUPS has begun to print it; set by cups_look, not by cups_list */
  char reason[WORDS_BYTES]; /* the first of its job-state-reasons */
} cups_job;

typedef struct {
  bool stopped, accepts, processes;
  char words[WORDS_BYTES];  /* printer-state-message */
  char policy[WORDS_BYTES]; /* printer-error-policy */
} cups_queue;

typedef enum { CUPS_ANSWERED, CUPS_REFUSED, CUPS_AWAY } cups_reply;

void cups_open(const options *o);

/* Whether CUPS has run without a break since cups_watch. After some minutes it is false, since CUPS drops an idle connection. */
void cups_watch(void);
bool cups_was_there(void);
void cups_unwatch(void);

/* Why the last call was refused, or CUPS could not be reached. */
const char *cups_why(void);

/* Calls `see` with each job of this user, also with old ones. */
cups_reply cups_list(void (*see)(const cups_job *job, void *own), void *own);

/* A job that CUPS does not have is CUPS_REFUSED. */
cups_reply cups_look(uint32_t number, cups_job *job);

/* Whether a job whose document was sent is a ghost: CUPS says that it waits, but never prints it. A job becomes a ghost if CUPS is stopped
   while the machine finishes the page, or is killed before it has noted that it has the document. */
cups_reply cups_is_ghost(uint32_t number, bool *ghost);
bool cups_waits_for_document(const cups_job *job);

cups_reply cups_look_at_queue(cups_queue *queue);

/* Makes a job without a document, which prints nothing. */
cups_reply cups_create(const char *title, uint32_t *number);
cups_reply cups_send(uint32_t number, const uint8_t *bytes, size_t length);
cups_reply cups_cancel(uint32_t number);

#endif
