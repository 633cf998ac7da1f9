#define _GNU_SOURCE
#include "answer.h"

#include <stdio.h>
#include <string.h>

#define SENTENCE_BYTES 200

/* The text after a word and its blank, or NULL. */
static const char *behind(const char *line, const char *word) {
  size_t length = strlen(word);
  return strncmp(line, word, length) == 0 && line[length] == ' ' ? line + length + 1 : NULL;
}

/* Takes a number of 1 to 10 digits, up to 4,294,967,295, that `end` follows. Returns the text after `end`, or NULL. */
static const char *take_number(const char *line, char end, uint32_t *number) {
  uint64_t value = 0;
  size_t digits = strspn(line, "0123456789");
  if (digits < 1 || digits > 10 || line[digits] != end) return NULL;
  for (size_t i = 0; i < digits; i++) value = 10 * value + (uint64_t)(line[i] - '0');
  *number = (uint32_t)value;
  return value <= UINT32_MAX ? line + digits + (end != '\0') : NULL;
}

static bool read_numbers(const char *line, answer *a) {
  line = take_number(line, ' ', &a->id);
  return line != NULL && take_number(line, '\0', &a->number) != NULL;
}

bool answer_read(const char *line, answer *a) {
  const char *words;
  *a = (answer){.kind = SERVES};
  if ((words = behind(line, "serves")) != NULL) return (size_t)snprintf(a->name, sizeof a->name, "%s", words) < sizeof a->name;
  a->kind = COUNT;
  if ((words = behind(line, "count")) != NULL) return read_numbers(words, a);
  a->kind = DONE;
  return (words = behind(line, "done")) != NULL && read_numbers(words, a);
}

const char *sentence_of(const char *line) {
  const char *words = behind(line, "says");
  return words != NULL && strlen(words) <= SENTENCE_BYTES ? words : NULL;
}
