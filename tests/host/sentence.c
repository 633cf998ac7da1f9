/* Refusals in words: each sentence compared with words that are written here once more, and read back; other bytes and short buffers. */
#include <stdio.h>
#include <string.h>

#include "host.h"

#define NO_NAME " tag"
#define BEFORE 32 /* bytes before a lent buffer */
#define ROOM (BEFORE + KATCHIDUL_SENTENCE_MAX + 32)

/* By number; a number without words is not known. */
static const char *const words[] = {NULL,
                                    "Refusal 1: over 1,024 bytes, or cut in the field at byte",
                                    "Refusal 2: unknown tag or wrong length in the field at byte",
                                    "Refusal 3: a tag stands a second time in the field at byte",
                                    "Refusal 4: the order lacks a field:",
                                    "Refusal 5: a value is out of range, or the month lacks the day:",
                                    "Refusal 6: the sun has no transit (day 0 is the row's date), day",
                                    "Refusal 7: the sun does not rise (day 0 is the row's date), day",
                                    "Refusal 8: the sun does not set (day 0 is the row's date), day",
                                    "Refusal 9: a lent buffer is too short, place",
                                    "Refusal 10: an instant is out of range, place",
                                    "Refusal 11: no prayer is in force, place",
                                    "Refusal 12: the log's second buffer is too short, page or count",
                                    "Refusal 13: a record of the log is out of turn, page",
                                    "Refusal 14: the embosser's count does not fit the log, count",
                                    "Refusal 15: a coordinate is given in both forms:",
                                    "Refusal 16: the print queue is full, job id",
                                    "Refusal 17: the job's id or its pages are not allowed, job id",
                                    "Refusal 18: the sheet does not begin on the 1st of Ramadan:"};
static const char *const names[] = {NO_NAME,
                                    " town, tag",
                                    " first day, tag",
                                    " rows, tag",
                                    " latitude, tag",
                                    " longitude, tag",
                                    " method, tag",
                                    " madhab, tag",
                                    " high latitude rule, tag",
                                    " rounding, tag",
                                    " shafaq, tag",
                                    " minutes, tag",
                                    " fajr angle, tag",
                                    " isha angle, tag",
                                    " isha interval, tag",
                                    " carry, tag",
                                    " clock, tag",
                                    " southern, tag",
                                    " map latitude, tag",
                                    " map longitude, tag",
                                    " ramadan, tag"};
#define NUMBERS (sizeof words / sizeof *words)
#define TAGS (sizeof names / sizeof *names)
static const uint32_t some_places[] = {0, 6, 10, 14, 65536, UINT32_MAX};
#define SOME (sizeof some_places / sizeof *some_places)

typedef struct {
  size_t length;
  uint8_t bytes[KATCHIDUL_SENTENCE_MAX + 8];
} sentence;

static bool is_known(uint32_t number) { return number < NUMBERS && words[number]; }

static sentence sentence_of(uint32_t number, uint32_t place) {
  sentence made = {0};
  bool of_tag = words[number][strlen(words[number]) - 1] == ':';
  const char *name = !of_tag ? "" : place < TAGS ? names[place] : NO_NAME;
  made.length = (size_t)snprintf((char *)made.bytes, sizeof made.bytes, "%s%s %u", words[number], name, (unsigned)place);
  return made;
}

/* Writes into a buffer with bytes on both sides, all of them other from call to call. The answer must be this one, and every byte as it was
   but for those of the sentence, if there is one. */
static void writes(uint32_t number, uint32_t place, size_t size, uint32_t refused, const sentence *made, const char *what) {
  static uint32_t call;
  uint8_t room[ROOM], wanted[ROOM];
  call++;
  for (size_t i = 0; i < ROOM; i++) room[i] = (uint8_t)((i * 2654435761u + call * 40503u) >> 5);
  memcpy(wanted, room, ROOM);
  if (made) memcpy(wanted + BEFORE, made->bytes, made->length);
  katchidul_written answer = katchidul_write_sentence(number, place, room + BEFORE, size);
  bool answered = answer.number == refused && answer.place == 0 && answer.length == (made ? made->length : 0);
  check(answered && memcmp(room, wanted, ROOM) == 0, what);
}

static bool means(const uint8_t *bytes, size_t length, uint32_t number, uint32_t place) {
  katchidul_meaning meaning = katchidul_read_sentence(bytes, length);
  return meaning.number == 0 && meaning.place == 0 && meaning.of_number == number && meaning.of_place == place;
}

static bool says_nothing(const uint8_t *bytes, size_t length) {
  katchidul_meaning meaning = katchidul_read_sentence(bytes, length);
  return meaning.number == KATCHIDUL_OUT_OF_RANGE && meaning.place == 0 && meaning.of_number == 0 && meaning.of_place == 0;
}

/* A changed byte or a cut may make another sentence: then it must be the sentence of what is read. */
static bool says_nothing_else(const uint8_t *bytes, size_t length, uint32_t number, uint32_t place) {
  katchidul_meaning meaning = katchidul_read_sentence(bytes, length);
  if (meaning.number != 0) return says_nothing(bytes, length);
  if (!is_known(meaning.of_number) || (meaning.of_number == number && meaning.of_place == place)) return false;
  sentence made = sentence_of(meaning.of_number, meaning.of_place);
  return made.length == length && memcmp(made.bytes, bytes, length) == 0;
}

static void check_pair(uint32_t number, uint32_t place) {
  sentence made = sentence_of(number, place);
  writes(number, place, KATCHIDUL_SENTENCE_MAX, 0, &made, "a refusal's sentence");
  check(means(made.bytes, made.length, number, place), "a sentence is read back");
  bool cut = true;
  for (size_t length = 0; length < made.length; length++) cut = cut && says_nothing_else(made.bytes, length, number, place);
  check(cut, "no beginning of a sentence is read as the whole");
}

static void check_buffers(uint32_t number, uint32_t place) {
  sentence made = sentence_of(number, place);
  for (size_t size = 0; size < made.length; size++)
    writes(number, place, size, KATCHIDUL_BUFFER_SHORT, NULL, "a buffer shorter than the sentence");
  writes(number, place, made.length, 0, &made, "a buffer as long as the sentence");
  writes(number, place, made.length + 1, 0, &made, "a buffer longer by one");
}

static void check_changed(uint32_t number, uint32_t place) {
  sentence made = sentence_of(number, place);
  for (size_t at = 0; at < made.length; at++) {
    bool held = true;
    sentence changed = made;
    for (unsigned other = 1; other < 256; other++) {
      changed.bytes[at] = (uint8_t)(made.bytes[at] + other);
      held = held && says_nothing_else(changed.bytes, changed.length, number, place);
    }
    check(held, "each byte by each other one");
  }
}

/* One byte more, at every index: a leading zero, a plus, a blank, a newline, a zero byte. A digit can make another place. */
static void check_longer(uint32_t number, uint32_t place) {
  static const uint8_t more[] = {'0', '1', '+', '-', ' ', '\n', 0};
  sentence made = sentence_of(number, place);
  for (size_t at = 0; at <= made.length; at++) {
    for (size_t i = 0; i < sizeof more; i++) {
      sentence longer = made;
      memmove(longer.bytes + at + 1, made.bytes + at, made.length - at);
      longer.bytes[at] = more[i];
      longer.length++;
      check(says_nothing_else(longer.bytes, longer.length, number, place), "a byte more");
    }
  }
}

static void check_worked(void) {
  static const char *const nothing[] = {"",
                                        "Refusal 4: the order lacks a field: method, tag 06",
                                        "Refusal 4: the order lacks a field: method, tag +6",
                                        "Refusal 4: the order lacks a field: method, tag 6 ",
                                        "Refusal 4: the order lacks a field: method, tag ",
                                        "Refusal 4: the order lacks a field: method, tag",
                                        "Refusal 4: the order lacks a field: method, tag 7",
                                        "Refusal 4: the order lacks a field: tag 6",
                                        "Refusal 04: the order lacks a field: method, tag 6",
                                        "Refusal 3: the order lacks a field: method, tag 6",
                                        "refusal 4: the order lacks a field: method, tag 6",
                                        "Refusal 11: no prayer is in force, place 4294967296",
                                        "Refusal 11: no prayer is in force, place 18446744073709551616",
                                        "Refusal 11: no prayer is in force, place -1",
                                        "Refusal 0: place 0"};
  static const char method[] = "Refusal 4: the order lacks a field: method, tag 6";
  static const char other[] = "Refusal 4: the order lacks a field: tag 99";
  static const char last[] = "Refusal 11: no prayer is in force, place 4294967295";
  check(means((const uint8_t *)method, strlen(method), 4, 6), method);
  check(means((const uint8_t *)other, strlen(other), 4, 99), other);
  check(means((const uint8_t *)last, strlen(last), 11, UINT32_MAX), last);
  for (size_t i = 0; i < sizeof nothing / sizeof *nothing; i++)
    check(says_nothing((const uint8_t *)nothing[i], strlen(nothing[i])), nothing[i]);
}

static void check_known(uint32_t number) {
  for (uint32_t place = 0; place <= 2000; place++) check_pair(number, place);
  for (unsigned bits = 11; bits <= 32; bits++) {
    uint32_t end = bits == 32 ? UINT32_MAX : (UINT32_C(1) << bits) - 1;
    check_pair(number, end);
    check_pair(number, end - 1);
  }
  for (size_t i = 0; i < SOME; i++) {
    check_buffers(number, some_places[i]);
    check_changed(number, some_places[i]);
    check_longer(number, some_places[i]);
  }
}

/* Refused before the buffer is checked. */
static void check_unknown(uint32_t number) {
  for (size_t size = 0; size <= KATCHIDUL_SENTENCE_MAX; size++)
    writes(number, 7, size, KATCHIDUL_OUT_OF_RANGE, NULL, "an unknown number, whatever the buffer");
}

/* A null pointer with size 0 is an empty buffer. */
static void check_null(void) {
  check(katchidul_write_sentence(0, 0, NULL, 0).number == KATCHIDUL_OUT_OF_RANGE, "an unknown number with no buffer");
  check(katchidul_write_sentence(1, 0, NULL, 0).number == KATCHIDUL_BUFFER_SHORT, "no buffer");
  check(says_nothing(NULL, 0), "no sentence");
}

void check_sentences(void) {
  for (uint32_t number = 0; number <= 300; number++) {
    if (is_known(number)) check_known(number);
    else check_unknown(number);
  }
  check_unknown(65536 + 4);
  check_unknown(UINT32_MAX);
  check_worked();
  check_null();
}
