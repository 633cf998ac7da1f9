/* The jobs in work: which page goes out next, and what an acknowledgement does. Only the log says how far a job is, and it is read each
   time. */
#ifndef ROOM_H
#define ROOM_H

#include "job.h"
#include "link.h"
#include "names.h"

/* A job leaves the library's queue when its pages are sent, and the room when they are finished. */
#define ROOM_JOBS (KATCHIDUL_JOBS_MAX + OPEN_MAX_PAGES)

typedef struct {
  int spool;
  char spool_name[SPOOL_NAME_MAX + 1];
  embosser embosser;
  katchidul_queue queue;
  job jobs[ROOM_JOBS];
  uint32_t count;
  names waiting;     /* orders in in/ */
  names told;        /* lines that are not said again */
  path told_to_wait; /* the order of which it was said that the queue is full */
  moment look_at;    /* when jobs/ and in/ are read again */
  uint32_t next_id;  /* of a new job */
  bool refused;      /* an order or a job was */
  bool news;         /* a page was finished since a lost link was told */
  bool stays;        /* the host goes on when nothing is left */
  bool passed_over[KATCHIDUL_ID_MAX + 1]; /* jobs that can be neither begun nor moved */
  bool announced[KATCHIDUL_ID_MAX + 1];   /* jobs whose order the embosser has, on this link */
} room;

/* The job in work with this id, or NULL. */
job *room_find(room *r, uint32_t id);

/* Takes a job out of the room and out of the queue; its folder is not moved. */
void room_drop(room *r, uint32_t id);

/* The room is empty, as at every start and when the link was lost. */
void room_clear(room *r);

/* Sends the next page by the queue's turn, its record first. */
course send_next(room *r);

/* Sends a page whose record lasts. */
course send_page(room *r, const job *j, uint32_t page);

/* How many pages are sent and not finished, of all jobs. */
uint32_t open_pages(const room *r);

/* Waits until a page is finished. */
course hear_done(room *r);

/* Waits for a moment, and notes what the embosser says meanwhile. */
course wait_idle(room *r);

/* Asks how many pages of a job the embosser has finished, for good; it drops the others. Acknowledgements may come before the count. */
course hear_count(room *r, uint32_t id, uint32_t *count);

void say_progress(room *r, const job *j, uint32_t finished);

/* A job is done: moves it, and takes it out of the room. */
void leave(room *r, job *j);

#endif
