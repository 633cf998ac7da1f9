#define _GNU_SOURCE
#include "say.h"

#include <errno.h>
#include <fcntl.h>
#include <stdarg.h>
#include <stdio.h>
#include <stdlib.h>
#include <string.h>
#include <time.h>
#include <unistd.h>

#define TIME_BYTES 32

/* 2026-06-01T05:12:00+01:00 and a blank. */
static size_t write_time(char line[TIME_BYTES]) {
  time_t now = time(NULL);
  struct tm local;
  localtime_r(&now, &local);
  size_t length = strftime(line, TIME_BYTES - 2, "%Y-%m-%dT%H:%M:%S%z", &local);
  if (length < 2) return 0;
  memmove(line + length - 1, line + length - 2, 2); /* a colon before the offset's minutes */
  line[length - 2] = ':';
  line[length + 1] = ' ';
  return length + 2;
}

static size_t write_escaped(char *line, const char *bytes) {
  size_t length = 0;
  for (; *bytes != '\0'; bytes++) {
    if (*bytes >= ' ' && *bytes <= '~' && *bytes != '\\') line[length++] = *bytes;
    else length += (size_t)sprintf(line + length, "\\x%02x", (unsigned char)*bytes);
  }
  return length;
}

static text compose(const char *format, va_list words) {
  text made;
  if (vsnprintf(made.text, sizeof made.text, format, words) < 0) made.text[0] = '\0';
  return made;
}

text text_of(const char *format, ...) {
  va_list words;
  va_start(words, format);
  text made = compose(format, words);
  va_end(words);
  return made;
}

/* If nobody reads the messages any more, pages still go out. */
void say(const char *format, ...) {
  char line[TIME_BYTES + 4 * TEXT_BYTES];
  va_list words;
  va_start(words, format);
  text made = compose(format, words);
  va_end(words);
  size_t length = write_time(line);
  length += write_escaped(line + length, made.text);
  line[length++] = '\n';
  ssize_t gone = TEMP_FAILURE_RETRY(write(STDOUT_FILENO, line, length));
  (void)gone;
}

text refusal(uint32_t number, uint32_t place) {
  uint8_t words[KATCHIDUL_SENTENCE_MAX];
  katchidul_written sentence = katchidul_write_sentence(number, place, words, sizeof words);
  return text_of("%.*s", (int)sentence.length, (const char *)words);
}

_Noreturn void stop(const char *about, const char *why) {
  say("%s: %s; nothing more is sent", about, why);
  exit(ENDED_BY_DISK);
}

void keep_streams(void) {
  for (int stream = STDIN_FILENO; stream <= STDERR_FILENO; stream++)
    if (fcntl(stream, F_GETFD) < 0 && errno == EBADF && TEMP_FAILURE_RETRY(open("/dev/null", O_RDWR)) != stream)
      stop("/dev/null", strerror(errno));
}
