/* The spool: a folder with all that the host keeps. Every move in it is a rename that replaces nothing.

       name                the spool's own name, which the link begins with
       lock                the host that works here has a lock on it
       in/NAME             an order that waits to be taken; `katchidul spool submit` puts it there
       jobs/ID/order       a job: an order that was taken
       jobs/ID/name        the name that the order had in in/
       jobs/ID/log         its job log, as long as the file is; a log that is not there is empty
       done/ID             a job whose pages are all finished
       held/ID             a job that cannot go on, or that the operator holds; in jobs/ again it is tried again
       cancelled/ID        a job that the operator ended
       refused/NAME        an order that is refused; NAME.2, NAME.3, .. if the name is taken
       .../X.why           beside a held or cancelled job or a refused order: why, in a sentence
       asks/WORD.ID        what the operator asks for: cancel, hold or release a job

   Only a job's log says how far the job is. The print queue is made from the logs at every start, and again when the link is lost.

   An order is always in exactly one folder, if the file system makes a rename last in both of its folders or in neither, as file systems
   with a journal do. */
#ifndef SPOOL_H
#define SPOOL_H

#include <stdbool.h>
#include <stdint.h>

#include "disk.h"

#define SPOOL_NAME_MAX 64

/* Opens the spool, makes what is missing in it, and locks it for this process. */
int open_spool(const char *folder);

/* The spool's own name. It is made once. */
void read_spool_name(int spool, char name[SPOOL_NAME_MAX + 1]);

/* One above every id that a job has. */
uint32_t id_above_all(int spool);

/* Whether a job has this id: in any folder, or in the one that is named. */
bool id_is_used(int spool, uint32_t id);
bool job_is_in(int spool, const char *folder, uint32_t id);

/* Makes a job of an order by one rename. Returns 0, EEXIST if the id is taken, or ENOENT if the order is gone. */
int claim_order(int spool, const char *name, uint32_t id);

/* Removes the folder of a job that never got its order; false if it has more than the order's name. */
bool drop_unclaimed(int spool, uint32_t id);

/* Moves a job to another folder, with a sentence beside it if `why` is not NULL; 0, or why it was not moved (see move_lasting). */
int move_job(int spool, uint32_t id, const char *from, const char *to, const char *why);

/* Moves an order to refused/, with its sentence beside it. An order that is gone is no error. */
void refuse_order(int spool, const char *name, const char *why);

#endif
