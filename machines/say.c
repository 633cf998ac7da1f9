/* Lines for a person on standard error, each with its time. */
#include "driver.h"

#include <fcntl.h>
#include <stdarg.h>
#include <stdlib.h>
#include <time.h>
#include <unistd.h>

const char *program = "katchidul";

/* Opens /dev/null for each standard stream that is closed. Else a file of the state could get its number, and then the messages. */
void open_streams(void) {
  int file;
  do file = open("/dev/null", O_RDWR | O_CLOEXEC);
  while (file >= 0 && file <= STDERR_FILENO);
  if (file < 0) exit(ENDED_BY_FAILURE);
  close(file);
}

/* If nobody reads the messages any more, pages still go out. */
static void put(const char *line, size_t length) {
  ssize_t gone = write(STDERR_FILENO, line, length);
  (void)gone;
}

/* Control bytes would reach the operator's terminal as commands. */
void make_printable(char *text) {
  for (; *text != '\0'; text++)
    if (*text < ' ' || *text > '~') *text = '?';
}

/* 2026-06-01T05:12:00+01:00, as the host writes it: strftime has no colon in the offset. */
static void write_time(char *when, size_t size) {
  char offset[8];
  time_t now = time(NULL);
  struct tm local;
  localtime_r(&now, &local);
  strftime(offset, sizeof offset, "%z", &local);
  size_t length = strftime(when, size, "%Y-%m-%dT%H:%M:%S", &local);
  snprintf(when + length, size - length, "%.3s:%s", offset, offset + 3);
}

void say(const char *format, ...) {
  char words[1024], when[40], line[1200];
  va_list rest;
  va_start(rest, format);
  vsnprintf(words, sizeof words, format, rest);
  va_end(rest);
  make_printable(words);
  write_time(when, sizeof when);
  int length = snprintf(line, sizeof line, "%s %s: %s\n", when, program, words);
  put(line, (size_t)length);
}

_Noreturn void stop(const char *about, const char *why) {
  say("%s: %s; the driver ends, and nothing more is sent", about, why);
  exit(ENDED_BY_FAILURE);
}

long long now_ms(void) {
  struct timespec t;
  clock_gettime(CLOCK_MONOTONIC, &t);
  return t.tv_sec * 1000LL + t.tv_nsec / 1000000;
}
