/* Waiting. Each wait ends at a moment of the clock that never goes back, or by a signal that tells the host to end. */
#ifndef WAIT_H
#define WAIT_H

#include <stdbool.h>

/* The result of a step. */
typedef enum { GOES_ON, NOTHING_LEFT, TOO_LATE, LINK_LOST, TOLD_TO_END } course;

typedef long long moment; /* milliseconds */

moment after(int milliseconds);
bool has_passed(moment end);

/* From here on SIGTERM and SIGINT are blocked, and are taken only when the host waits or asks for them. */
void keep_back_signals(void);

/* The signal that told the host to end, by name, or NULL. It is asked for between two messages. */
const char *told_to_end(void);

/* Waits until a file is ready: GOES_ON, or TOO_LATE. If `interrupted`, a signal ends the wait: TOLD_TO_END. A file below 0 is never
   ready. */
course wait_until(moment end, int file, short events, bool interrupted);

#endif
