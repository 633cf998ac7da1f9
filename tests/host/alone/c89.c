/* The header from a host in C89: a queue, an order of no bytes and its sentence, and the limit of an instant's seconds. */
#include "katchidul.h"

#include <string.h>

int main(void) {
  static const char owed[] = "Refusal 4: the order lacks a field: town, tag 1";
  uint8_t words[KATCHIDUL_SENTENCE_MAX];
  katchidul_queue queue = {0};
  katchidul_day day = katchidul_work_day(NULL, 0, 0);
  katchidul_written written = katchidul_write_sentence(day.number, day.place, words, sizeof words);
  if (katchidul_turn(queue).id != 0 || day.number != KATCHIDUL_TAG_MISSING) return 1;
  if (written.length != sizeof owed - 1 || memcmp(words, owed, sizeof owed - 1) != 0) return 1;
  if (katchidul_prayer_at(NULL, 0, 0, KATCHIDUL_SECONDS_MAX + 1, 0).number != KATCHIDUL_INSTANT_BEYOND) return 1;
  return katchidul_version() / 65536 == KATCHIDUL_VERSION_MAJOR && katchidul_environment_is_default() ? 0 : 1;
}
