// The header from C++: its structs declared ahead, its constants, and every call linked under its C name.
struct katchidul_day;
static bool is_refused(const struct katchidul_day &day);

#include "katchidul.h"

static bool is_refused(const katchidul_day &day) { return day.number == KATCHIDUL_TAG_MISSING && day.place == 1; }

int main() {
  uint8_t line[KATCHIDUL_ROW_BYTES];
  bool right = katchidul_read_order(nullptr, 0).number == KATCHIDUL_TAG_MISSING && is_refused(katchidul_work_day(nullptr, 0, 0)) &&
               katchidul_prayer_at(nullptr, 0, 0, 0, 0).number == KATCHIDUL_TAG_MISSING &&
               katchidul_next_at(nullptr, 0, 0, KATCHIDUL_SECONDS_MAX + 1, 0).number == KATCHIDUL_INSTANT_BEYOND &&
               katchidul_remaining_at(nullptr, 0, 0, 0, 0).number == KATCHIDUL_TAG_MISSING &&
               katchidul_write_row(nullptr, 0, 0, line, sizeof line).number == KATCHIDUL_TAG_MISSING &&
               katchidul_write_cells(nullptr, 0, 0, line, sizeof line).number == KATCHIDUL_TAG_MISSING &&
               katchidul_write_page(nullptr, 0, 1, 0, line, sizeof line).number == KATCHIDUL_TAG_MISSING &&
               katchidul_join(katchidul_queue(), 0, 1).number == KATCHIDUL_JOB_UNFIT && katchidul_turn(katchidul_queue()).id == 0 &&
               katchidul_read_log(nullptr, 0, 0).number == 0 && katchidul_map_latitude(91.0).place == 18 && katchidul_map_longitude(91.0).degrees == 91 &&
               katchidul_restart(nullptr, 0, 0, 1, line, sizeof line).number == KATCHIDUL_LOG_COUNT_OUTSIDE &&
               katchidul_append(nullptr, 0, 0, KATCHIDUL_RECORD_SENT, 1, line, sizeof line).used == 2 * KATCHIDUL_RECORD_BYTES &&
               katchidul_write_sentence(KATCHIDUL_NO_SUNSET, 1, line, KATCHIDUL_SENTENCE_MAX).number == 0 &&
               katchidul_write_order(katchidul_order(), nullptr, 0, line, sizeof line).number != 0 && katchidul_version() != 0 &&
               katchidul_read_sentence(nullptr, 0).number == KATCHIDUL_OUT_OF_RANGE;
  return right && katchidul_environment_is_default() == 1 ? 0 : 1;
}
