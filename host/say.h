/* Messages to a person: a line each on standard output, with its time. */
#ifndef SAY_H
#define SAY_H

#include <stdint.h>

#include "katchidul.h"

#define TEXT_BYTES 640 /* of a message before its time; a longer one is cut */

typedef struct {
  char text[TEXT_BYTES];
} text;

/* How the host ends. */
enum { ENDED_WELL = 0, ENDED_WITH_REFUSALS = 1, ENDED_BY_DISK = 2, ENDED_WITHOUT_EMBOSSER = 3, ENDED_BY_SIGNAL = 4 };

#define LIKE_PRINTF(at, first) __attribute__((format(printf, at, first)))

/* Writes a line. It is always one line of printable ASCII: every other byte, and the backslash, is written as \xHH. */
LIKE_PRINTF(1, 2) void say(const char *format, ...);

LIKE_PRINTF(1, 2) text text_of(const char *format, ...);

/* A refusal in the library's words. */
text refusal(uint32_t number, uint32_t place);

/* Says what failed and ends the host. If it went on, it would send a page that its log does not have. */
_Noreturn void stop(const char *about, const char *why);

/* Opens /dev/null for each standard stream that is closed, so that no message goes into a file that gets its number. */
void keep_streams(void);

#endif
