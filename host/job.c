#define _GNU_SOURCE
#include "job.h"

#include <errno.h>
#include <fcntl.h>
#include <stdio.h>
#include <string.h>
#include <sys/stat.h>
#include <unistd.h>

#include "disk.h"

/* A new file is flushed and then renamed to the log's name, so the log's bytes and their number last together. */
static void keep(int spool, job *j, katchidul_log now) {
  path folder = path_of("jobs/%u", j->id);
  j->at ^= now.moved;
  j->used = now.used;
  write_lasting(spool, folder.text, "log", j->buffer[j->at], j->used);
}

katchidul_log job_log(const job *j) { return katchidul_read_log(j->buffer[j->at], LOG_SIZE, j->used); }

katchidul_log job_append(int spool, job *j, uint32_t tag, uint32_t page) {
  katchidul_log now = katchidul_append(j->buffer[j->at], LOG_SIZE, j->used, tag, page, j->buffer[!j->at], LOG_SIZE);
  if (now.number == 0) keep(spool, j, now);
  return now;
}

katchidul_log job_restart(int spool, job *j, uint32_t count) {
  katchidul_log now = katchidul_restart(j->buffer[j->at], LOG_SIZE, j->used, count, j->buffer[!j->at], LOG_SIZE);
  if (now.number == 0) keep(spool, j, now);
  return now;
}

text job_label(const job *j) {
  text town = town_of(&j->order);
  if (town.text[0] == '\0') return text_of("job %u (%s)", j->id, j->name);
  return text_of("job %u (%s, %s)", j->id, j->name, town.text);
}

/* If the system lacks files or memory, that is no fault of the job. */
static bool is_of_the_system(int why) { return why == EMFILE || why == ENFILE || why == ENOMEM; }

static int read_part(int spool, const path *folder, const char *part, void *bytes, size_t size, size_t *length) {
  path file = path_of("%s/%s", folder->text, part);
  int why = read_file(spool, file.text, false, bytes, size, length);
  if (is_of_the_system(why)) stop(file.text, trouble(why));
  return why;
}

/* A job of an older host has no file with its name. */
static void read_name(int spool, const path *folder, job *j) {
  size_t length;
  if (read_part(spool, folder, "name", j->name, sizeof j->name - 1, &length) != 0 || j->name[0] == '\0')
    snprintf(j->name, sizeof j->name, "order");
}

/* Why a log cannot be written in the job's folder, or NULL. */
static const char *unfit_folder(int spool, const path *folder) {
  struct stat is;
  if (TEMP_FAILURE_RETRY(fstatat(spool, folder->text, &is, AT_SYMLINK_NOFOLLOW)) == 0 && !S_ISDIR(is.st_mode)) return "it is not a folder";
  if (faccessat(spool, folder->text, W_OK | X_OK, AT_EACCESS) != 0 && errno == EACCES) return "its folder cannot be written";
  return NULL;
}

static katchidul_reply refusal_of(const job *j) {
  uint8_t cells[KATCHIDUL_PAGE_CELLS];
  katchidul_order asks = katchidul_read_order(j->order.bytes, j->order.length);
  if (asks.number != 0) return (katchidul_reply){asks.number, asks.place};
  katchidul_log log = job_log(j);
  if (log.number != 0 || log.sent == 0) return (katchidul_reply){log.number, log.place};
  katchidul_cells last = page_cells(&j->order, log.sent, cells);
  return (katchidul_reply){last.number, last.place};
}

job_state job_read(int spool, const char *in, uint32_t id, job *j, text *why) {
  path folder = path_of("%s/%u", in, id);
  const char *unfit = unfit_folder(spool, &folder);
  *j = (job){.id = id};
  read_name(spool, &folder, j);
  int order = read_part(spool, &folder, "order", j->order.bytes, sizeof j->order.bytes, &j->order.length);
  int log = read_part(spool, &folder, "log", j->buffer[0], LOG_SIZE, &j->used);
  if (j->order.length > sizeof j->order.bytes) j->order.length = sizeof j->order.bytes;
  if (order == ENOENT && log == ENOENT && unfit == NULL) return JOB_UNCLAIMED;
  if (unfit != NULL) *why = text_of("%s", unfit);
  else if (order != 0) *why = text_of("its order cannot be read: %s", trouble(order));
  else if (log != 0 && log != ENOENT) *why = text_of("its log cannot be read: %s", trouble(log));
  else {
    katchidul_reply reply = refusal_of(j);
    if (reply.number == 0) return JOB_READ;
    *why = refusal(reply.number, reply.place);
  }
  return JOB_UNFIT;
}
