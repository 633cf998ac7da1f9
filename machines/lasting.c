/* The state folder, and what lasts in it. If a write, a flush or a rename fails, the driver ends. If it went on, it would send a page that
   its state does not have. */
#include "driver.h"

#include <errno.h>
#include <fcntl.h>
#include <string.h>
#include <sys/stat.h>
#include <unistd.h>

#define PATH_BYTES 64 /* of a name in the state */

_Noreturn static void stop_at(const char *name) { stop(name, strerror(errno)); }

static void flush_and_close(int file, const char *name) {
  if (file < 0 || fsync(file) != 0 || close(file) != 0) stop_at(name);
}

static void flush_folder(int state, const char *name) {
  flush_and_close(openat(state, name, O_RDONLY | O_DIRECTORY | O_CLOEXEC), name);
}

static void make_folder(int state, const char *name) {
  if (mkdirat(state, name, 0777) != 0 && errno != EEXIST) stop_at(name);
}

/* An open file description lock ends with the process, and closing another file does not drop it. */
static void lock(int state, const char *name) {
  int file = openat(state, "lock", O_RDWR | O_CREAT | O_NOFOLLOW | O_CLOEXEC, 0666);
  struct flock whole = {.l_type = F_WRLCK, .l_whence = SEEK_SET};
  if (file < 0) stop_at("lock");
  if (fcntl(file, F_OFD_SETLK, &whole) == 0) return;
  if (errno == EAGAIN || errno == EACCES) stop(name, "another driver works in this folder");
  stop_at("lock");
}

/* Opens the state folder. A driver is `alone` there; the command `answer` works beside one. */
int open_state(const char *name, bool alone) {
  static const char *const folders[] = {"jobs", "questions", "answers"};
  if (alone && mkdir(name, 0777) != 0 && errno != EEXIST) stop_at(name);
  int state = open(name, O_RDONLY | O_DIRECTORY | O_CLOEXEC);
  if (state < 0) stop_at(name);
  if (!alone) return state;
  lock(state, name);
  for (size_t i = 0; i < sizeof folders / sizeof *folders; i++) make_folder(state, folders[i]);
  flush_folder(state, ".");
  return state;
}

/* Reads a file of fewer than `size` bytes and ends it with a zero byte. Returns its length, or 0 if the file does not exist. */
size_t read_small(int state, const char *name, char *bytes, size_t size) {
  struct stat is;
  size_t length = 0;
  int file = openat(state, name, O_RDONLY | O_NOFOLLOW | O_NONBLOCK | O_CLOEXEC);
  bytes[0] = '\0';
  if (file < 0 && errno == ENOENT) return 0;
  if (file < 0 || fstat(file, &is) != 0) stop_at(name);
  if (!S_ISREG(is.st_mode)) stop(name, "this is no file");
  for (ssize_t some = 1; some != 0 && length < size;) {
    some = read(file, bytes + length, size - length);
    if (some < 0 && errno != EINTR) stop_at(name);
    if (some > 0) length += (size_t)some;
  }
  close(file);
  if (length == size) stop(name, "the file is too long to be the driver's own");
  bytes[length] = '\0';
  return length;
}

static void write_all(int file, const char *name, const char *bytes, size_t length) {
  while (length > 0) {
    ssize_t some = write(file, bytes, length);
    if (some < 0 && errno == EINTR) continue;
    if (some < 0) stop_at(name);
    bytes += some, length -= (size_t)some;
  }
}

/* Replaces the file's bytes at once: it has all of the old ones or all of the new ones. */
void write_lasting(int state, const char *folder, const char *name, const char *bytes, size_t length) {
  char made[PATH_BYTES], meant[PATH_BYTES];
  snprintf(made, sizeof made, "%s/.%s.new", folder, name);
  snprintf(meant, sizeof meant, "%s/%s", folder, name);
  int file = openat(state, made, O_WRONLY | O_CREAT | O_TRUNC | O_NOFOLLOW | O_CLOEXEC, 0666);
  if (file < 0) stop_at(made);
  write_all(file, made, bytes, length);
  flush_and_close(file, made);
  if (renameat(state, made, state, meant) != 0) stop_at(meant);
  flush_folder(state, folder);
}

void remove_lasting(int state, const char *folder, const char *name) {
  char path[PATH_BYTES];
  snprintf(path, sizeof path, "%s/%s", folder, name);
  if (unlinkat(state, path, 0) == 0) flush_folder(state, folder);
  else if (errno != ENOENT) stop_at(path);
}
