/* How far a job is on this machine, a file jobs/ID of five lines:

       finished 1
       sent 2
       cups 112
       file durham.order
       town Durham */
#include "driver.h"

#include <string.h>

#define RECORD_BYTES 256

/* The value after a line's word, or NULL; `at` then moves to the next line. */
static char *value_of(char **at, const char *word) {
  size_t length = strlen(word);
  char *line = *at, *end = strchr(line, '\n');
  if (end == NULL || strncmp(line, word, length) != 0 || line[length] != ' ') return NULL;
  *end = '\0';
  *at = end + 1;
  return line + length + 1;
}

static bool number_of(char **at, const char *word, uint32_t most, uint32_t *number) {
  char *value = value_of(at, word);
  return value != NULL && read_number(value, strlen(value), 0, most, number);
}

static bool text_of(char **at, const char *word, char *text, size_t size) {
  char *value = value_of(at, word);
  if (value == NULL || strlen(value) >= size) return false;
  strcpy(text, value);
  return true;
}

/* Returns false if this machine has had no page of the job. */
bool record_read(int state, uint32_t id, record *r) {
  char name[32], bytes[RECORD_BYTES], *at = bytes;
  memset(r, 0, sizeof *r);
  snprintf(name, sizeof name, "jobs/%u", id);
  if (read_small(state, name, bytes, sizeof bytes) == 0) return false;
  bool whole = number_of(&at, "finished", KATCHIDUL_PAGES_MAX, &r->finished) && number_of(&at, "sent", KATCHIDUL_PAGES_MAX, &r->sent) &&
               number_of(&at, "cups", NUMBER_MAX, &r->cups) && text_of(&at, "file", r->file, sizeof r->file) &&
               text_of(&at, "town", r->town, sizeof r->town) && *at == '\0' && r->finished <= r->sent;
  if (!whole) stop(name, "this is no record of a job");
  return true;
}

void record_write(int state, uint32_t id, const record *r) {
  char name[16], bytes[RECORD_BYTES];
  snprintf(name, sizeof name, "%u", id);
  int length = snprintf(bytes, sizeof bytes, "finished %u\nsent %u\ncups %u\nfile %s\ntown %s\n", r->finished, r->sent, r->cups, r->file,
                        r->town);
  write_lasting(state, "jobs", name, bytes, (size_t)length);
}
