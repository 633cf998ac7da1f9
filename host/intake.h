/* What comes into the room: jobs that are in the spool, orders that wait, and what the operator asks for. */
#ifndef INTAKE_H
#define INTAKE_H

#include "room.h"

/* Takes what the operator asks for, then begins jobs in the order of their ids, then orders by their names, while the queue has a place. */
course admit(room *r);

/* Says something once. */
void say_once(room *r, const char *line);

/* Moves a job that cannot go on to held/, with its sentence. If it cannot be moved, it is passed over. */
void hold(room *r, uint32_t id, const char *label, const char *why);

/* asks.c: takes the files in asks/. */
course take_asks(room *r);

#endif
