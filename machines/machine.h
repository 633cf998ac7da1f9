/* What a driver asks of its machine. cups_machine.c and port_machine.c both have these functions, and each program has one of them. A
   machine has one page in work at a time. */
#ifndef MACHINE_H
#define MACHINE_H

#include "driver.h"

typedef enum { GOES_ON, FINISHED, LOST } progress;

/* What to wait for beside the host: a file, or -1, and its events; and the most milliseconds until machine_look. */
typedef struct {
  int file;
  short events;
  int patience;
} wait_for;

void machine_open(const options *o, int state);

/* Takes a page into work. Returns false if the machine cannot take it now: the operator is told, and the page is tried again. */
bool machine_take(const char *spool, const sheet *s);

/* How far the page in work is. LOST means that it is not finished, and that the operator was told why. */
progress machine_look(void);

/* After `restart`: drops the job's unfinished pages, and sets `finished` to the number of the others. Returns false while that number is
   not known, and is then called again. In this time it also looks after the page in work, if that is the job's. */
bool machine_settle(const char *spool, uint32_t id, uint32_t *finished);

/* The page in work, if there is one, is no longer looked after. */
void machine_forget(void);

wait_for machine_waits_for(void);

/* Milliseconds that the driver waits for the page in work before it ends. */
int machine_last_wait(void);

#endif
