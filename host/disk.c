#define _GNU_SOURCE
#include "disk.h"

#include <errno.h>
#include <fcntl.h>
#include <stdarg.h>
#include <stdint.h>
#include <stdio.h>
#include <string.h>
#include <sys/stat.h>
#include <unistd.h>

#include "say.h"

/* A file is written under this name before it gets its own. It is in the spool itself, so nothing in a job's folder can have its name. */
#define UNFINISHED ".new"

path path_of(const char *format, ...) {
  path made;
  va_list words;
  va_start(words, format);
  vsnprintf(made.text, sizeof made.text, format, words);
  va_end(words);
  return made;
}

_Noreturn static void stop_at(const char *name) { stop(name, strerror(errno)); }

const char *trouble(int why) { return why == NOT_REGULAR ? "it is not a regular file" : strerror(why); }

/* On Linux a file is closed also when close was interrupted. */
static void flush_and_close(int file, const char *name) {
  if (file < 0 || TEMP_FAILURE_RETRY(fsync(file)) != 0) stop_at(name);
  if (close(file) != 0 && errno != EINTR) stop_at(name);
}

void flush_folder(int spool, const char *name) {
  flush_and_close(TEMP_FAILURE_RETRY(openat(spool, name, O_RDONLY | O_DIRECTORY | O_CLOEXEC)), name);
}

bool make_folder(int spool, const char *name) {
  if (TEMP_FAILURE_RETRY(mkdirat(spool, name, 0777)) == 0) return true;
  if (errno != EEXIST) stop_at(name);
  return false;
}

static bool write_all(int file, const uint8_t *bytes, size_t length) {
  while (length > 0) {
    ssize_t some = TEMP_FAILURE_RETRY(write(file, bytes, length));
    if (some < 0) return false;
    bytes += some, length -= (size_t)some;
  }
  return true;
}

void write_lasting(int spool, const char *folder, const char *name, const void *bytes, size_t length) {
  path meant = path_of("%s/%s", folder, name);
  int file = TEMP_FAILURE_RETRY(openat(spool, UNFINISHED, O_WRONLY | O_CREAT | O_TRUNC | O_NOFOLLOW | O_CLOEXEC, 0666));
  if (file < 0 || !write_all(file, bytes, length)) stop_at(UNFINISHED);
  flush_and_close(file, UNFINISHED);
  if (TEMP_FAILURE_RETRY(renameat(spool, UNFINISHED, spool, meant.text)) != 0) stop_at(meant.text);
  flush_folder(spool, folder);
}

static bool is_of_the_names(int why) { return why == ENOENT || why == EEXIST || why == EACCES || why == EPERM; }

int move_lasting(int spool, const char *from_folder, const char *from, const char *to_folder, const char *to) {
  path old = path_of("%s/%s", from_folder, from), new = path_of("%s/%s", to_folder, to);
  if (TEMP_FAILURE_RETRY(renameat2(spool, old.text, spool, new.text, RENAME_NOREPLACE)) != 0) {
    if (!is_of_the_names(errno)) stop_at(old.text);
    return errno;
  }
  flush_folder(spool, to_folder);
  flush_folder(spool, from_folder);
  return 0;
}

void remove_lasting(int spool, const char *folder, const char *name) {
  path file = path_of("%s/%s", folder, name);
  if (TEMP_FAILURE_RETRY(unlinkat(spool, file.text, 0)) == 0) flush_folder(spool, folder);
  else if (errno != ENOENT) stop_at(file.text);
}

bool is_regular(int spool, const char *name) {
  struct stat is;
  return TEMP_FAILURE_RETRY(fstatat(spool, name, &is, AT_SYMLINK_NOFOLLOW)) == 0 && S_ISREG(is.st_mode);
}

/* Reads an open file, up to `size` bytes; `length` is how many there are. */
static int read_open(int file, bool flush, uint8_t *bytes, size_t size, size_t *length) {
  struct stat is;
  if (TEMP_FAILURE_RETRY(fstat(file, &is)) != 0) return errno;
  if (!S_ISREG(is.st_mode)) return NOT_REGULAR;
  if (flush && TEMP_FAILURE_RETRY(fsync(file)) != 0) return errno;
  while (*length < size) {
    ssize_t some = TEMP_FAILURE_RETRY(read(file, bytes + *length, size - *length));
    if (some < 0) return errno;
    if (some == 0) return 0;
    *length += (size_t)some;
  }
  if ((size_t)is.st_size > size) *length = (size_t)is.st_size;
  return 0;
}

int read_file(int spool, const char *name, bool flush, void *bytes, size_t size, size_t *length) {
  memset(bytes, 0, size);
  *length = 0;
  int file = TEMP_FAILURE_RETRY(openat(spool, name, O_RDONLY | O_NOFOLLOW | O_NONBLOCK | O_NOCTTY | O_CLOEXEC));
  if (file < 0) return errno == ELOOP || errno == ENXIO ? NOT_REGULAR : errno;
  int why = read_open(file, flush, bytes, size, length);
  close(file);
  return why;
}
