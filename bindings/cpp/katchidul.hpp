/* The calls of katchidul.h for C++17, in namespace katchidul: each has the header's name without `katchidul_`. What the header's call
   writes into a lent buffer is returned, and a refusal is thrown as katchidul::refused, whose what() is the library's sentence. Orders,
   towns and logs are std::string_view of their bytes. The structs and the numbers are the header's. */
#ifndef KATCHIDUL_HPP
#define KATCHIDUL_HPP

#include <katchidul.h>

#include <algorithm>
#include <stdexcept>
#include <string>
#include <string_view>

namespace katchidul {

inline const std::uint8_t *bytes(std::string_view given) { return reinterpret_cast<const std::uint8_t *>(given.data()); }
inline std::uint8_t *lent(std::string &buffer) { return reinterpret_cast<std::uint8_t *>(buffer.data()); }

/* A refusal in words; empty for a number that is none. */
inline std::string write_sentence(std::uint32_t number, std::uint32_t place) {
  std::string words(KATCHIDUL_SENTENCE_MAX, '\0');
  words.resize(katchidul_write_sentence(number, place, lent(words), words.size()).length);
  return words;
}

struct refused : std::runtime_error {
  refused(std::uint32_t number, std::uint32_t place)
      : std::runtime_error(write_sentence(number, place)), number(static_cast<katchidul_refusal>(number)), place(place) {}
  katchidul_refusal number;
  std::uint32_t place;
};

/* An answer whose call succeeded. */
template <typename answer> answer accepted(const answer &said) {
  if (said.number != 0) throw refused(said.number, said.place);
  return said;
}

struct braille {
  std::string cells; /* a byte each, 39 a row */
  std::uint32_t rows, dots;
};

inline constexpr std::size_t log_room = KATCHIDUL_LOG_ROOM(KATCHIDUL_PAGES_MAX); /* enough for a job of the print queue */

struct job_log {
  std::string bytes;                    /* which the host makes lasting */
  std::uint32_t finished = 0, sent = 0; /* pages 1 to finished are done, 1 to sent are sent */
};

struct sentence_meaning {
  katchidul_refusal number;
  std::uint32_t place;
};

inline std::uint32_t version() { return katchidul_version(); }

inline katchidul_order read_order(std::string_view order) { return accepted(katchidul_read_order(bytes(order), order.size())); }

inline std::string write_order(const katchidul_order &order, std::string_view town) {
  std::string written(KATCHIDUL_WRITTEN_MAX, '\0');
  written.resize(accepted(katchidul_write_order(order, bytes(town), town.size(), lent(written), written.size())).length);
  return written;
}

inline katchidul_day work_day(std::string_view order, std::uint32_t row) {
  return accepted(katchidul_work_day(bytes(order), order.size(), row));
}

inline katchidul_prayer_number prayer_at(std::string_view order, std::uint32_t row, std::int64_t seconds, std::uint32_t nanoseconds = 0) {
  return static_cast<katchidul_prayer_number>(accepted(katchidul_prayer_at(bytes(order), order.size(), row, seconds, nanoseconds)).prayer);
}

inline katchidul_prayer_number next_at(std::string_view order, std::uint32_t row, std::int64_t seconds, std::uint32_t nanoseconds = 0) {
  return static_cast<katchidul_prayer_number>(accepted(katchidul_next_at(bytes(order), order.size(), row, seconds, nanoseconds)).prayer);
}

inline katchidul_remaining remaining_at(std::string_view order, std::uint32_t row, std::int64_t seconds, std::uint32_t nanoseconds = 0) {
  return accepted(katchidul_remaining_at(bytes(order), order.size(), row, seconds, nanoseconds));
}

/* A row's line with its newline. */
inline std::string write_row(std::string_view order, std::uint32_t row) {
  std::string line(KATCHIDUL_RAMADAN_ROW_BYTES, '\0');
  accepted(katchidul_write_row(bytes(order), order.size(), row, lent(line), line.size()));
  line.resize(line.find('\n') + 1);
  return line;
}

inline braille write_cells(std::string_view order, std::uint32_t row) {
  std::string cells(KATCHIDUL_ROW_CELLS, '\0');
  const katchidul_cells said = accepted(katchidul_write_cells(bytes(order), order.size(), row, lent(cells), cells.size()));
  return {cells, said.rows, said.dots};
}

inline braille write_page(std::string_view order, std::uint32_t page) {
  std::string cells(KATCHIDUL_PAGE_CELLS, '\0');
  const katchidul_cells said = accepted(katchidul_write_page(bytes(order), order.size(), page, 0, lent(cells), cells.size()));
  cells.resize(KATCHIDUL_ROW_CELLS * said.rows);
  return {cells, said.rows, said.dots};
}

inline katchidul_queue join(const katchidul_queue &queue, std::uint32_t id, std::uint32_t pages) {
  return accepted(katchidul_join(queue, id, pages)).queue;
}

inline katchidul_turned turn(const katchidul_queue &queue) { return katchidul_turn(queue); }

inline job_log read_log(std::string_view log) {
  const katchidul_log said = accepted(katchidul_read_log(bytes(log), log.size(), log.size()));
  return {std::string(log.substr(0, said.used)), said.finished, said.sent};
}

/* The log with a record more; the host keeps `size` bytes for it. */
inline job_log append(std::string_view log, katchidul_record record, std::uint32_t page, std::size_t size = log_room) {
  std::string first(log), second(size, '\0');
  first.resize(std::max(size, log.size()));
  const katchidul_log said = accepted(katchidul_append(lent(first), first.size(), log.size(), record, page, lent(second), second.size()));
  return {(said.moved ? second : first).substr(0, said.used), said.finished, said.sent};
}

/* The log after a failure, by the number of pages that the embosser has finished. */
inline job_log restart(std::string_view log, std::uint32_t count, std::size_t size = log_room) {
  std::string second(size, '\0');
  const katchidul_log said = accepted(katchidul_restart(bytes(log), log.size(), log.size(), count, lent(second), second.size()));
  return {second.substr(0, said.used), said.finished, said.sent};
}

inline sentence_meaning read_sentence(std::string_view sentence) {
  const katchidul_meaning said = accepted(katchidul_read_sentence(bytes(sentence), sentence.size()));
  return {static_cast<katchidul_refusal>(said.of_number), said.of_place};
}

inline katchidul_map map_latitude(double degrees) { return accepted(katchidul_map_latitude(degrees)); }
inline katchidul_map map_longitude(double degrees) { return accepted(katchidul_map_longitude(degrees)); }

} // namespace katchidul

#endif
