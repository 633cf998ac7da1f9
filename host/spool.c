#define _GNU_SOURCE
#include "spool.h"

#include <errno.h>
#include <fcntl.h>
#include <stdio.h>
#include <stdlib.h>
#include <string.h>
#include <sys/random.h>
#include <sys/stat.h>
#include <unistd.h>

#include "katchidul.h"
#include "names.h"
#include "say.h"

#define WHY ".why"

/* The folders of jobs. The operator may move a job out of held/ at any time, to jobs/ or cancelled/. So held/ is read before them, and no
   job is missed. */
static const char *const job_folders[] = {"held", "done", "cancelled", "jobs"};

#define JOB_FOLDERS (sizeof job_folders / sizeof *job_folders)

/* ---- the spool itself */

/* A lock of the open file, not of the process: it stays when the file is opened and closed once more. */
static void lock_spool(int spool, const char *folder) {
  struct flock whole = {.l_type = F_WRLCK, .l_whence = SEEK_SET};
  int file = TEMP_FAILURE_RETRY(openat(spool, "lock", O_RDWR | O_CREAT | O_NOFOLLOW | O_NONBLOCK | O_CLOEXEC, 0666));
  if (file < 0) stop("lock", strerror(errno));
  if (TEMP_FAILURE_RETRY(fcntl(file, F_OFD_SETLK, &whole)) == 0) return;
  stop(folder, errno == EAGAIN || errno == EACCES ? "another host is at work here" : strerror(errno));
}

int open_spool(const char *folder) {
  static const char *const folders[] = {"in", "jobs", "done", "held", "cancelled", "refused", "asks"};
  int spool = TEMP_FAILURE_RETRY(open(folder, O_RDONLY | O_DIRECTORY | O_CLOEXEC));
  if (spool < 0) stop(folder, strerror(errno));
  lock_spool(spool, folder);
  for (size_t i = 0; i < sizeof folders / sizeof *folders; i++) make_folder(spool, folders[i]);
  flush_folder(spool, ".");
  return spool;
}

static bool is_spool_name(const char *name, size_t length) {
  static const char allowed[] = "ABCDEFGHIJKLMNOPQRSTUVWXYZabcdefghijklmnopqrstuvwxyz0123456789._-";
  return length >= 1 && length <= SPOOL_NAME_MAX && strspn(name, allowed) == length;
}

static void make_spool_name(int spool, char name[SPOOL_NAME_MAX + 1]) {
  uint64_t number;
  if (TEMP_FAILURE_RETRY(getrandom(&number, sizeof number, 0)) != sizeof number) stop("a name for the spool", strerror(errno));
  int length = snprintf(name, SPOOL_NAME_MAX, "spool-%016llx\n", (unsigned long long)number);
  write_lasting(spool, ".", "name", name, (size_t)length);
}

void read_spool_name(int spool, char name[SPOOL_NAME_MAX + 1]) {
  char bytes[SPOOL_NAME_MAX + 2];
  size_t length;
  int why = read_file(spool, "name", false, bytes, sizeof bytes, &length);
  if (why == ENOENT) make_spool_name(spool, bytes), length = strlen(bytes);
  else if (why != 0) stop("name", trouble(why));
  if (length <= sizeof bytes && length > 0 && bytes[length - 1] == '\n') bytes[--length] = '\0';
  if (!is_spool_name(bytes, length)) stop("name", "this is no spool's name: 1 to 64 letters, digits, dots, underlines or hyphens");
  memcpy(name, bytes, length + 1);
}

/* ---- ids */

static void note_largest(void *largest, const char *name) {
  uint32_t id = id_of(name);
  if (id > *(uint32_t *)largest) *(uint32_t *)largest = id;
}

uint32_t id_above_all(int spool) {
  uint32_t largest = 0;
  for (size_t i = 0; i < JOB_FOLDERS; i++) each_name(spool, job_folders[i], note_largest, &largest);
  return largest + 1;
}

/* Only ENOENT says that a name is free. */
static bool is_there(int spool, const char *folder, const char *name) {
  struct stat is;
  path file = path_of("%s/%s", folder, name);
  if (TEMP_FAILURE_RETRY(fstatat(spool, file.text, &is, AT_SYMLINK_NOFOLLOW)) == 0) return true;
  if (errno != ENOENT) stop(file.text, strerror(errno));
  return false;
}

bool job_is_in(int spool, const char *folder, uint32_t id) { return is_there(spool, folder, path_of("%u", id).text); }

bool id_is_used(int spool, uint32_t id) {
  for (size_t i = 0; i < JOB_FOLDERS; i++)
    if (job_is_in(spool, job_folders[i], id)) return true;
  return false;
}

/* ---- orders and jobs */

/* The order's name is written into the job's folder before the order is moved there. */
int claim_order(int spool, const char *name, uint32_t id) {
  path folder = path_of("jobs/%u", id);
  if (!make_folder(spool, folder.text)) return EEXIST;
  flush_folder(spool, "jobs");
  write_lasting(spool, folder.text, "name", name, strlen(name));
  int why = move_lasting(spool, "in", name, folder.text, "order");
  if (why != 0) drop_unclaimed(spool, id);
  if (why != 0 && why != ENOENT) stop(name, strerror(why));
  return why;
}

bool drop_unclaimed(int spool, uint32_t id) {
  path folder = path_of("jobs/%u", id), name = path_of("jobs/%u/name", id);
  if (TEMP_FAILURE_RETRY(unlinkat(spool, name.text, 0)) != 0 && errno != ENOENT) return false;
  return TEMP_FAILURE_RETRY(unlinkat(spool, folder.text, AT_REMOVEDIR)) == 0;
}

static void write_why(int spool, const char *folder, const char *name, const char *why) {
  path file = path_of("%s" WHY, name);
  text line = text_of("%s\n", why);
  write_lasting(spool, folder, file.text, line.text, strlen(line.text));
}

/* The sentence is written before the job is moved. */
int move_job(int spool, uint32_t id, const char *from, const char *to, const char *why) {
  path name = path_of("%u", id), old = path_of("%u" WHY, id);
  if (why != NULL) write_why(spool, to, name.text, why);
  int failed = move_lasting(spool, from, name.text, to, name.text);
  if (failed == 0 && strcmp(from, "jobs") != 0) remove_lasting(spool, from, old.text);
  return failed;
}

/* The name that a refused order gets: its own, then with a number. It leaves room for the name of its sentence, and is never the name of
   a sentence. Returns false if it may not have the name with this number. */
static bool refused_name(const char *name, uint32_t number, path *kept) {
  const size_t longest = NAME_MAX - (sizeof WHY - 1), length = strlen(name);
  *kept = number == 1 ? path_of("%s", name) : path_of("%.*s.%u", (int)longest - 11, name, number); /* a dot and ten digits */
  if (number > 1) return true;
  return length <= longest && (length < sizeof WHY - 1 || strcmp(name + length - (sizeof WHY - 1), WHY) != 0);
}

void refuse_order(int spool, const char *name, const char *why) {
  path kept;
  int failed = EEXIST;
  for (uint32_t number = 1; failed == EEXIST; number++) {
    if (!refused_name(name, number, &kept) || is_there(spool, "refused", kept.text)) continue;
    write_why(spool, "refused", kept.text, why);
    failed = move_lasting(spool, "in", name, "refused", kept.text);
  }
  if (failed == ENOENT) remove_lasting(spool, "refused", path_of("%s" WHY, kept.text).text);
  else if (failed != 0) stop(name, strerror(failed));
}
