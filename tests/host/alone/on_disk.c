/* A host whose job log lasts on a disk, by the rules of docs/HOST.md: a process that ends before any one of its writes and is begun again.
   The embosser loses what it has not finished, and acknowledgements are lost too. At the end each page is finished once, in order. */
#define _DEFAULT_SOURCE
#include <fcntl.h>
#include <limits.h>
#include <stdbool.h>
#include <stdio.h>
#include <stdlib.h>
#include <sys/mman.h>
#include <sys/wait.h>
#include <unistd.h>

#include "katchidul.h"

#define PAGES 12
#define OPEN 3 /* pages that may be open at a time */
#define SIZE KATCHIDUL_LOG_ROOM(OPEN)

/* ---- the embosser, which outlives the host: pages that reached it, of which the first `count` are finished */

typedef struct {
  uint32_t count, reached, pages[100 * PAGES];
} embosser;

static embosser *other;

/* ---- what lasts: a file for each buffer, and one that says which of them is the log and how many of its bytes */

typedef struct {
  uint32_t at;
  size_t used;
} place;

static uint8_t buffer[2][SIZE];
static uint32_t at;
static size_t used;
static int file = -1;
static unsigned long writes_left;

static void before_a_write(void) {
  if (writes_left-- == 0) _exit(1);
}

static void open_file(const char *name) {
  file = open(name, O_RDWR | O_CREAT, 0600);
  if (file < 0) _exit(2);
}

static void flush(void) {
  before_a_write();
  if (fsync(file) != 0 || close(file) != 0) _exit(2);
}

static void write_bytes(const uint8_t *bytes, size_t length) {
  open_file(bytes == buffer[0] ? "log.0" : "log.1");
  for (size_t i = 0; i < length; i++) {
    before_a_write();
    if (pwrite(file, bytes + i, 1, (off_t)i) != 1) _exit(2);
  }
}

/* As one: a file that is flushed and then renamed into place. The flush of the caller is the folder's. */
static void write_place(uint32_t now_at, size_t now_used) {
  const place now = {now_at, now_used};
  open_file("place.new");
  before_a_write();
  if (pwrite(file, &now, sizeof now, 0) != sizeof now) _exit(2);
  flush();
  if (rename("place.new", "place") != 0) _exit(2);
  file = open(".", O_RDONLY);
}

static void read_disk(void) {
  place last = {0, 0};
  for (int i = 0; i < 2; i++) {
    open_file(i == 0 ? "log.0" : "log.1");
    if (pread(file, buffer[i], SIZE, 0) < 0 || close(file) != 0) _exit(2);
  }
  file = open("place", O_RDONLY);
  if (file >= 0 && (pread(file, &last, sizeof last, 0) != sizeof last || close(file) != 0)) _exit(2);
  at = last.at, used = last.used;
}

static void send(uint32_t page) {
  before_a_write();
  other->pages[other->reached++] = page;
}

/* ---- the host */

static uint32_t append(uint32_t tag, uint32_t page) {
  katchidul_log a = katchidul_append(buffer[at], SIZE, used, tag, page, buffer[!at], SIZE);
  if (a.number != 0) return a.number;
  write_bytes(buffer[at ^= a.moved], used = a.used), flush();
  write_place(at, used), flush();
  if (tag == KATCHIDUL_RECORD_SENT) send(page);
  return 0;
}

static uint32_t begin_again(void) {
  other->reached = other->count;
  katchidul_log r = katchidul_restart(buffer[at], SIZE, used, other->count, buffer[!at], SIZE);
  if (r.number != 0) return r.number;
  write_bytes(buffer[at ^= r.moved], used = r.used), flush();
  write_place(at, used), flush();
  for (uint32_t page = r.finished + 1; page <= r.sent; page++) send(page);
  return 0;
}

/* Sends pages while fewer than OPEN are open, and records what the embosser has finished, at times a page late. */
static int work(void) {
  read_disk();
  if (begin_again() != 0) return 3;
  for (;;) {
    katchidul_log now = katchidul_read_log(buffer[at], SIZE, used);
    if (now.number != 0) return 3;
    if (now.finished == PAGES) return 0;
    if (now.sent < PAGES && now.sent - now.finished < OPEN) {
      if (append(KATCHIDUL_RECORD_SENT, now.sent + 1) != 0) return 3;
    } else if (other->count < other->reached && other->count < now.finished + 2) {
      other->count++;
    } else if (append(KATCHIDUL_RECORD_DONE, now.finished + 1) != 0) {
      return 3;
    }
  }
}

/* A process that ends before its n-th write: 0 if it came to its own end before that, 1 if it did not, and else what is wrong. */
static int work_until(unsigned long n) {
  int status;
  pid_t child = fork();
  if (child == 0) {
    writes_left = n;
    _exit(work());
  }
  return child > 0 && waitpid(child, &status, 0) == child && WIFEXITED(status) ? WEXITSTATUS(status) : 2;
}

static void forget(void) {
  static const char *const names[] = {"log.0", "log.1", "place", "place.new"};
  for (size_t i = 0; i < sizeof names / sizeof *names; i++) unlink(names[i]);
}

/* A job whose host ends before its n-th write, soon after that once more, and then comes to its end. Meanwhile the embosser finishes its
   pages, or loses them at the next start. */
static bool is_right(unsigned long n, bool finishes, bool *whole) {
  const unsigned long ends[] = {n, n * 7 % 61, ULONG_MAX};
  int ended = 1;
  forget();
  *other = (embosser){0};
  for (size_t i = 0; ended == 1 && i < sizeof ends / sizeof *ends; i++) {
    ended = work_until(ends[i]);
    *whole = ended == 0 && i == 0;
    if (finishes) other->count = other->reached;
  }
  for (uint32_t i = 0; i < PAGES; i++)
    if (other->pages[i] != i + 1) return false;
  return ended == 0 && other->count == PAGES;
}

int main(void) {
  char in_memory[] = "/dev/shm/katchidul.XXXXXX", elsewhere[] = "/tmp/katchidul.XXXXXX";
  char *folder = mkdtemp(in_memory) ? in_memory : mkdtemp(elsewhere);
  other = mmap(NULL, sizeof *other, PROT_READ | PROT_WRITE, MAP_SHARED | MAP_ANONYMOUS, -1, 0);
  if (!folder || chdir(folder) != 0 || other == MAP_FAILED) return 2;
  bool whole = false, right = true;
  unsigned long n = 0;
  for (; right && !whole; n++) right = is_right(n, false, &whole) && is_right(n, true, &whole);
  forget();
  rmdir(folder);
  printf("host: a job log on a disk, ended before each of %lu writes\n", n - 1);
  return right ? 0 : 1;
}
