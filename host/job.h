/* A job: its order, and its log in two buffers that take turns. On the disk the log is one file, whose length is `used`. */
#ifndef JOB_H
#define JOB_H

#include <limits.h>

#include "order.h"

#define OPEN_MAX_PAGES 3 /* pages that the embosser may have at a time, of all jobs */
#define LOG_SIZE KATCHIDUL_LOG_ROOM(OPEN_MAX_PAGES)

typedef struct {
  uint32_t id;
  char name[NAME_MAX + 1]; /* the order's in in/ */
  order order;
  uint8_t buffer[2][LOG_SIZE];
  uint32_t at; /* which of them is the log */
  size_t used;
} job;

typedef enum { JOB_READ, JOB_UNCLAIMED, JOB_UNFIT } job_state;

/* Reads a job from a folder of the spool. JOB_UNCLAIMED: it has neither order nor log. JOB_UNFIT: the job cannot go on, and `why` says
   why: a file cannot be read, order or log are refused, or the log has a page that the order lacks. */
job_state job_read(int spool, const char *folder, uint32_t id, job *j, text *why);

/* What a message calls the job: `job 7 (leeds.order, Leeds)`. */
text job_label(const job *j);

katchidul_log job_log(const job *j);

/* What these two write lasts when they return. A refused record or count changes nothing. */
katchidul_log job_append(int spool, job *j, uint32_t tag, uint32_t page);
katchidul_log job_restart(int spool, job *j, uint32_t count);

#endif
