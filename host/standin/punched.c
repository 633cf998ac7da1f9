#define _GNU_SOURCE
#include "punched.h"

#include <errno.h>
#include <fcntl.h>
#include <limits.h>
#include <stdio.h>
#include <string.h>
#include <unistd.h>

static int file = -1;
static uint32_t counts[ID_MAX + 1];
static char serves_file[PATH_MAX], unfinished[PATH_MAX + 4];

bool punched_open(const char *name) {
  char bytes[MESSAGE_BYTES];
  off_t whole = 0;
  if (snprintf(serves_file, sizeof serves_file, "%s.serves", name) >= (int)sizeof serves_file) return false;
  snprintf(unfinished, sizeof unfinished, "%s.new", serves_file);
  file = open(name, O_RDWR | O_CREAT | O_CLOEXEC, 0666);
  if (file < 0) return false;
  for (;;) {
    ssize_t some = pread(file, bytes, sizeof bytes, whole);
    message m = message_from(bytes, some > 0 ? (size_t)some : 0);
    errno = EINVAL;
    if (some < 0 || (m.kind != PAGE && m.kind != UNFINISHED)) return false;
    if (m.kind == UNFINISHED) break;
    counts[m.id]++;
    whole += (off_t)m.length;
  }
  return ftruncate(file, whole) == 0 && lseek(file, whole, SEEK_SET) == whole;
}

bool punched_append(const sheet *s) {
  if (write(file, s->bytes, s->length) != (ssize_t)s->length || fdatasync(file) != 0) return false;
  counts[s->id]++;
  return true;
}

uint32_t punched_count(uint32_t id) { return counts[id]; }

/* Written as the host writes a log: a new file is flushed and then renamed. */
static bool keep_serves(const char *name) {
  int made = open(unfinished, O_WRONLY | O_CREAT | O_TRUNC | O_CLOEXEC, 0666);
  bool kept = made >= 0 && write(made, name, strlen(name)) == (ssize_t)strlen(name) && fsync(made) == 0;
  if (made >= 0) close(made);
  return kept && rename(unfinished, serves_file) == 0;
}

bool punched_serves(const char *asking, char name[NAME_BYTES + 1]) {
  int kept = open(serves_file, O_RDONLY | O_CLOEXEC);
  if (kept < 0 && errno == ENOENT) return memcpy(name, asking, strlen(asking) + 1), keep_serves(asking);
  ssize_t length = kept < 0 ? -1 : read(kept, name, NAME_BYTES);
  if (kept >= 0) close(kept);
  name[length < 0 ? 0 : length] = '\0';
  return length > 0;
}
