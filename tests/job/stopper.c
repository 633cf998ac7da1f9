/* Preloaded into a host: counts its calls, and at the one whose number is STOPPER_AFTER does what STOPPER_HOW says:
       kill    lets it come to its end, and ends the process by its own id
       torn    lets half of its bytes through, if it has any, and ends the process
       fail    does nothing, and says that it failed by STOPPER_ERROR, a number
   kill and torn count the calls that write, to the disk, to the link or to a person; fail counts every call, or those of the one name that
   STOPPER_CALL says.
   STOPPER_SHORT: reads and writes take that many bytes at most, each time.
   STOPPER_TRACE names a file that gets a line for each call that writes, when it has ended, with names from the spool on; STOPPER_SPOOL
   says which folder is the spool. STOPPER_COUNT names a file that gets a line for each call of any kind.
   STOPPER_MOVE is three names: when the first, a folder, is opened for the first time, the second is renamed to the third, as an operator
   may do it at any moment. */
#define _GNU_SOURCE
#include <dirent.h>
#include <dlfcn.h>
#include <errno.h>
#include <fcntl.h>
#include <poll.h>
#include <signal.h>
#include <stdarg.h>
#include <stdio.h>
#include <stdlib.h>
#include <string.h>
#include <sys/socket.h>
#include <sys/stat.h>
#include <sys/syscall.h>
#include <unistd.h>

static long calls, writes, stop_after;
static char how = 'k';
static int trace = -1, counted = -1, error = EIO;
static size_t most = (size_t)-1;
static const char *spool = "", *only;

typedef struct {
  char text[4096];
} path;

static int open_own(const char *name) {
  const char *file = getenv(name);
  return file == NULL ? -1 : (int)syscall(SYS_openat, AT_FDCWD, file, O_WRONLY | O_CREAT | O_APPEND | O_CLOEXEC, 0666);
}

__attribute__((constructor)) static void read_settings(void) {
  const char *after = getenv("STOPPER_AFTER"), *way = getenv("STOPPER_HOW");
  if (after) stop_after = atol(after);
  if (way) how = way[0];
  only = getenv("STOPPER_CALL");
  if (getenv("STOPPER_SPOOL")) spool = getenv("STOPPER_SPOOL");
  if (getenv("STOPPER_ERROR")) error = atoi(getenv("STOPPER_ERROR"));
  if (getenv("STOPPER_SHORT")) most = (size_t)atol(getenv("STOPPER_SHORT"));
  trace = open_own("STOPPER_TRACE");
  counted = open_own("STOPPER_COUNT");
}

static int is_now(char way) { return stop_after != 0 && writes == stop_after && how == way; }

static void end_here(void) {
  kill(getpid(), SIGKILL);
  for (;;) pause();
}

/* ---- names and notes */

/* An open file's name, from the spool on: "." is the spool itself. */
static path name_of(int file) {
  char link[64];
  path whole, name;
  snprintf(link, sizeof link, "/proc/self/fd/%d", file);
  ssize_t length = readlink(link, whole.text, sizeof whole.text - 1);
  whole.text[length < 0 ? 0 : length] = '\0';
  size_t front = strlen(spool);
  const char *rest = strncmp(whole.text, spool, front) == 0 ? whole.text + front : whole.text;
  snprintf(name.text, sizeof name.text, "%s", rest[0] == '\0' ? "." : rest[0] == '/' ? rest + 1 : rest);
  return name;
}

static void note(const char *format, ...) {
  char line[8192];
  va_list words;
  if (trace < 0) return;
  va_start(words, format);
  int length = vsnprintf(line, sizeof line, format, words);
  va_end(words);
  syscall(SYS_write, trace, line, (size_t)length);
}

static void note_bytes(const char *what, const char *name, const void *bytes, size_t length) {
  char digits[4096];
  for (size_t i = 0; i < length && 2 * i + 2 < sizeof digits; i++) sprintf(digits + 2 * i, "%02x", ((const unsigned char *)bytes)[i]);
  digits[2 * length < sizeof digits ? 2 * length : 0] = '\0';
  note("%s %s %s\n", what, name, digits);
}

/* ---- before and after a call */

/* True if the call has to fail. */
static int fails(const char *call) {
  calls += only == NULL || strcmp(call, only) == 0;
  if (counted >= 0) {
    char line[64];
    syscall(SYS_write, counted, line, (size_t)snprintf(line, sizeof line, "%s\n", call));
  }
  if (how != 'f' || calls != stop_after || (only != NULL && strcmp(call, only) != 0)) return 0;
  errno = error;
  return 1;
}

static int write_fails(const char *call) {
  if (fails(call)) return 1;
  writes++;
  return 0;
}

/* The process ends here if its turn has come. A torn call that has no bytes is made whole. */
static void after_write(void) {
  if (is_now('k') || is_now('t')) end_here();
}

static size_t cut(size_t length) { return length < most ? length : most; }

/* The C library's own calls, for those that are more than a system call. */
static int (*real_faccessat)(int, const char *, int, int);
static DIR *(*real_fdopendir)(int);
static struct dirent *(*real_readdir)(DIR *);
static int (*real_ppoll)(struct pollfd *, nfds_t, const struct timespec *, const sigset_t *);

static void find(const char *name, void *pointer) {
  void *found = dlsym(RTLD_NEXT, name);
  memcpy(pointer, &found, sizeof found);
}

__attribute__((constructor)) static void find_real(void) {
  find("faccessat", &real_faccessat);
  find("fdopendir", &real_fdopendir);
  find("readdir", &real_readdir);
  find("ppoll", &real_ppoll);
}

/* ---- calls that write */

ssize_t write(int file, const void *bytes, size_t length) {
  if (write_fails("write")) return -1;
  ssize_t done = syscall(SYS_write, file, bytes, is_now('t') ? length / 2 : file <= 2 ? length : cut(length));
  if (done >= 0) note_bytes(file <= 2 ? "say" : "write", file <= 2 ? "-" : name_of(file).text, bytes, (size_t)done);
  after_write();
  return done;
}

ssize_t send(int socket, const void *bytes, size_t length, int flags) {
  if (write_fails("send")) return -1;
  ssize_t done = syscall(SYS_sendto, socket, bytes, is_now('t') ? length / 2 : cut(length), flags, NULL, 0);
  if (done >= 0) note_bytes("send", "-", bytes, (size_t)done);
  after_write();
  return done;
}

int fsync(int file) {
  if (write_fails("fsync")) return -1;
  int done = (int)syscall(SYS_fsync, file);
  if (done == 0) note("fsync %s\n", name_of(file).text);
  after_write();
  return done;
}

static void move_meanwhile(int spool_file, const char *opened) {
  static int moved;
  char folder[64], from[64], to[64];
  const char *words = getenv("STOPPER_MOVE");
  if (moved || words == NULL || sscanf(words, "%63s %63s %63s", folder, from, to) != 3 || strcmp(opened, folder) != 0) return;
  moved = 1;
  syscall(SYS_renameat2, spool_file, from, spool_file, to, 0);
}

/* It writes only if it may make a file. */
int openat(int folder, const char *name, int flags, ...) {
  va_list words;
  va_start(words, flags);
  int mode = flags & O_CREAT ? va_arg(words, int) : 0;
  va_end(words);
  move_meanwhile(folder, name);
  if (!(flags & O_CREAT)) return fails("openat") ? -1 : (int)syscall(SYS_openat, folder, name, flags, mode);
  if (write_fails("openat")) return -1;
  int file = (int)syscall(SYS_openat, folder, name, flags, mode);
  if (file >= 0) note("create %s\n", name);
  after_write();
  return file;
}

static int rename_by(int from_folder, const char *from, int to_folder, const char *to, unsigned flags, const char *call) {
  if (write_fails(call)) return -1;
  int done = (int)syscall(SYS_renameat2, from_folder, from, to_folder, to, flags);
  if (done == 0) note("rename %s %s\n", from, to);
  after_write();
  return done;
}

int renameat(int from_folder, const char *from, int to_folder, const char *to) {
  return rename_by(from_folder, from, to_folder, to, 0, "renameat");
}

int renameat2(int from_folder, const char *from, int to_folder, const char *to, unsigned flags) {
  return rename_by(from_folder, from, to_folder, to, flags, "renameat2");
}

int mkdirat(int folder, const char *name, mode_t mode) {
  if (write_fails("mkdirat")) return -1;
  int done = (int)syscall(SYS_mkdirat, folder, name, mode);
  if (done == 0) note("mkdir %s\n", name);
  after_write();
  return done;
}

int unlinkat(int folder, const char *name, int flags) {
  if (write_fails("unlinkat")) return -1;
  int done = (int)syscall(SYS_unlinkat, folder, name, flags);
  if (done == 0) note("remove %s\n", name);
  after_write();
  return done;
}

/* ---- calls that write nothing */

int open(const char *name, int flags, ...) { return fails("open") ? -1 : (int)syscall(SYS_openat, AT_FDCWD, name, flags, 0); }

/* A file is closed also when that fails. */
int close(int file) {
  int failed = fails("close"), done = (int)syscall(SYS_close, file);
  if (failed) errno = error;
  return failed ? -1 : done;
}

ssize_t read(int file, void *bytes, size_t length) { return fails("read") ? -1 : syscall(SYS_read, file, bytes, cut(length)); }

ssize_t recv(int socket, void *bytes, size_t length, int flags) {
  return fails("recv") ? -1 : syscall(SYS_recvfrom, socket, bytes, cut(length), flags, NULL, NULL);
}

int fstat(int file, struct stat *is) { return fails("fstat") ? -1 : (int)syscall(SYS_newfstatat, file, "", is, AT_EMPTY_PATH); }

int fstatat(int folder, const char *name, struct stat *is, int flags) {
  return fails("fstatat") ? -1 : (int)syscall(SYS_newfstatat, folder, name, is, flags);
}

int faccessat(int folder, const char *name, int mode, int flags) {
  return fails("faccessat") ? -1 : real_faccessat(folder, name, mode, flags);
}

DIR *fdopendir(int file) { return fails("fdopendir") ? NULL : real_fdopendir(file); }

struct dirent *readdir(DIR *list) { return fails("readdir") ? NULL : real_readdir(list); }

int socket(int domain, int type, int protocol) { return fails("socket") ? -1 : (int)syscall(SYS_socket, domain, type, protocol); }

int connect(int file, __CONST_SOCKADDR_ARG address, socklen_t length) {
  return fails("connect") ? -1 : (int)syscall(SYS_connect, file, address.__sockaddr__, length);
}

int ppoll(struct pollfd *files, nfds_t count, const struct timespec *time, const sigset_t *signals) {
  return fails("ppoll") ? -1 : real_ppoll(files, count, time, signals);
}

int fcntl(int file, int command, ...) {
  va_list words;
  va_start(words, command);
  void *word = va_arg(words, void *);
  va_end(words);
  return fails("fcntl") ? -1 : (int)syscall(SYS_fcntl, file, command, word);
}

ssize_t getrandom(void *bytes, size_t length, unsigned flags) {
  return fails("getrandom") ? -1 : syscall(SYS_getrandom, bytes, length, flags);
}
