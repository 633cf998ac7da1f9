// The header for C++17: every call, on an order that is made by one of them, and refusals as exceptions.
#include "katchidul.hpp"

#include <cstring>

template <typename call> static bool is_refused(katchidul_refusal number, std::uint32_t place, call ask) {
  try {
    ask();
  } catch (const katchidul::refused &why) {
    return why.number == number && why.place == place && std::strncmp(why.what(), "Refusal ", 8) == 0;
  }
  return false;
}

static std::string durham() {
  katchidul_order asked = {};
  asked.year = 2026, asked.month = 6, asked.day = 1, asked.rows = 30;
  asked.latitude = 54.7753, asked.longitude = -1.5849, asked.fajr_angle = 18, asked.isha_angle = 17, asked.madhab = KATCHIDUL_MADHAB_SHAFI;
  return katchidul::write_order(asked, "Durham");
}

static bool has_its_times(const std::string &order) {
  const std::int64_t fajr = katchidul::work_day(order, 0).times[KATCHIDUL_TIME_FAJR];
  return fajr == 1780272300 && katchidul::read_order(order).rows == 30 && katchidul::prayer_at(order, 0, fajr) == KATCHIDUL_PRAYER_FAJR &&
         katchidul::next_at(order, 0, fajr) == KATCHIDUL_PRAYER_SUNRISE && katchidul::remaining_at(order, 0, fajr).minutes == 31;
}

static bool has_its_pages(const std::string &order) {
  const std::string row = katchidul::write_row(order, 0), cells = katchidul::write_cells(order, 0).cells;
  const std::string page = katchidul::write_page(order, 1).cells;
  return row.size() == KATCHIDUL_ROW_BYTES && row.back() == '\n' && cells == page.substr(0, cells.size()) &&
         katchidul::write_page(order, 2).rows == 5;
}

static bool has_a_log() {
  katchidul::job_log log;
  for (std::uint32_t page = 1; page <= 8; page++) {
    log = katchidul::append(log.bytes, KATCHIDUL_RECORD_SENT, page, 25);
    log = katchidul::append(log.bytes, KATCHIDUL_RECORD_DONE, page, 25);
  }
  log = katchidul::append(log.bytes, KATCHIDUL_RECORD_SENT, 9, 25);
  return log.sent == 9 && katchidul::read_log(log.bytes).finished == 8 &&
         katchidul::restart(log.bytes, 9).bytes == std::string("\3\0\2\0\11", 5);
}

int main() {
  const std::string order = durham();
  const katchidul_queue queue = katchidul::join({}, 7, 2);
  bool right = has_its_times(order) && has_its_pages(order) && has_a_log() && katchidul::turn(queue).id == 7;
  right = right && is_refused(KATCHIDUL_OUT_OF_RANGE, 3, [&] { katchidul::work_day(order, 30); });
  right = right && is_refused(KATCHIDUL_TAG_MISSING, 1, [] { katchidul::read_order(""); });
  right = right && is_refused(KATCHIDUL_JOB_UNFIT, 7, [&] { katchidul::join(queue, 7, 1); });
  right = right && katchidul::read_sentence(katchidul::write_sentence(4, 6)).number == KATCHIDUL_TAG_MISSING;
  right = right && katchidul::map_latitude(54.7753).minutes == 46 && katchidul::map_longitude(-1.5849).sign == 1;
  return right && katchidul::version() >= KATCHIDUL_VERSION ? 0 : 1;
}
