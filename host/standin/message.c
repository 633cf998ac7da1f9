#include "message.h"

#include <string.h>

/* The text after a word and its blank, or NULL. */
static const char *behind(const char *line, const char *word) {
  size_t length = strlen(word);
  return strncmp(line, word, length) == 0 && line[length] == ' ' ? line + length + 1 : NULL;
}

/* Takes a number of 1 to 10 digits from 1 to `most`. Returns the text after it and a blank, or the line's end, or NULL. */
static const char *take_number(const char *line, uint32_t most, uint32_t *number) {
  uint64_t value = 0;
  size_t digits = line == NULL ? 0 : strspn(line, "0123456789");
  if (digits < 1 || digits > 10) return NULL;
  for (size_t i = 0; i < digits; i++) value = 10 * value + (uint64_t)(line[i] - '0');
  *number = (uint32_t)value;
  if (value < 1 || value > most || (line[digits] != ' ' && line[digits] != '\0')) return NULL;
  return line + digits + (line[digits] == ' ' ? 1 : 0);
}

static message_kind read_spool(const char *words, message *m) {
  size_t length = strlen(words);
  if (length < 1 || length > NAME_BYTES) return NO_MESSAGE;
  memcpy(m->name, words, length + 1);
  return SPOOL;
}

/* The kind of a line; `behind_it` is how many bytes follow the line. */
static message_kind read_line(const char *line, message *m, uint32_t *behind_it) {
  const char *words;
  uint32_t rows;
  *behind_it = 0;
  if ((words = behind(line, "spool")) != NULL) return read_spool(words, m);
  if ((words = take_number(behind(line, "restart"), ID_MAX, &m->id)) != NULL) return *words == '\0' ? RESTART : NO_MESSAGE;
  if ((words = take_number(behind(line, "job"), ID_MAX, &m->id)) != NULL)
    return (words = take_number(words, ORDER_MAX, behind_it)) != NULL && *words != '\0' ? JOB : NO_MESSAGE;
  words = take_number(behind(line, "page"), ID_MAX, &m->id);
  words = take_number(words, PAGES_MAX, &m->page);
  words = take_number(words, PAGE_ROWS_MAX, &rows);
  if (words == NULL || *words != '\0') return NO_MESSAGE;
  *behind_it = rows * ROW_CELLS;
  return PAGE;
}

message message_from(const char *bytes, size_t length) {
  message m = {.kind = UNFINISHED};
  char line[LINE_BYTES];
  uint32_t behind_it;
  const char *end = memchr(bytes, '\n', length < LINE_BYTES ? length : LINE_BYTES);
  if (end == NULL) {
    if (length >= LINE_BYTES) m.kind = NO_MESSAGE;
    return m;
  }
  size_t head = (size_t)(end - bytes);
  memcpy(line, bytes, head);
  line[head] = '\0';
  m.kind = strlen(line) == head ? read_line(line, &m, &behind_it) : NO_MESSAGE;
  if (m.kind == NO_MESSAGE) return m;
  m.length = head + 1 + behind_it;
  if (length < m.length) m.kind = UNFINISHED;
  return m;
}
