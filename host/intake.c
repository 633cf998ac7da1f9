#define _GNU_SOURCE
#include "intake.h"

#include <errno.h>
#include <stdlib.h>
#include <string.h>

#define LOOK 1000     /* milliseconds between two looks at jobs/ and in/ */
#define TOLD_MAX 1000 /* lines that are remembered, so that a host that runs for years does not grow */

void say_once(room *r, const char *line) {
  if (r->told.count == TOLD_MAX) names_clear(&r->told);
  if (names_add(&r->told, line)) say("%s", line);
}

void hold(room *r, uint32_t id, const char *label, const char *why) {
  say("%s is held: %s", label, why);
  int failed = move_job(r->spool, id, "jobs", "held", why);
  if (failed != 0) say("%s stays in jobs/ and is passed over: it cannot be moved to held/: %s", label, trouble(failed));
  r->passed_over[id] = failed != 0;
  r->refused = true;
}

/* ---- jobs */

/* The queue with the pages that the job has left to send. If it has none, the queue stays as it is. */
static katchidul_joined join(const room *r, const job *j) {
  uint32_t left = pages_of(&j->order) - job_log(j).sent;
  if (left == 0) return (katchidul_joined){.queue = r->queue};
  return katchidul_join(r->queue, j->id, left);
}

/* Restarts the job's log with the embosser's count. The open pages go out again; their sent records are in the log already. */
static course restart(room *r, job *j) {
  uint32_t count;
  course c = hear_count(r, j->id, &count);
  if (c != GOES_ON) return c;
  katchidul_log now = job_restart(r->spool, j, count);
  if (now.number != 0) return hold(r, j->id, job_label(j).text, refusal(now.number, now.place).text), GOES_ON;
  r->queue = join(r, j).queue;
  job *kept = &r->jobs[r->count++];
  *kept = *j;
  if (now.sent > 0) say_progress(r, kept, now.finished);
  for (uint32_t page = now.finished + 1; page <= now.sent && c == GOES_ON; page++) c = send_page(r, kept, page);
  if (now.finished == pages_of(&kept->order)) leave(r, kept);
  return c;
}

/* Takes a job into work. If the queue has no place for it, it stays in its folder and is tried again. */
static course begin(room *r, uint32_t id) {
  job j;
  text why;
  job_state state = job_read(r->spool, "jobs", id, &j, &why);
  if (state == JOB_UNCLAIMED && drop_unclaimed(r->spool, id)) return GOES_ON;
  if (state == JOB_UNCLAIMED) why = text_of("its order is missing");
  if (state != JOB_READ) return hold(r, id, job_label(&j).text, why.text), GOES_ON;
  katchidul_joined joined = join(r, &j);
  if (joined.number == KATCHIDUL_QUEUE_FULL || r->count == ROOM_JOBS) return GOES_ON;
  if (joined.number != 0) return hold(r, id, job_label(&j).text, refusal(joined.number, joined.place).text), GOES_ON;
  return restart(r, &j);
}

static void note_id(void *ids, const char *name) {
  uint32_t id = id_of(name);
  if (id != 0) ((bool *)ids)[id] = true;
}

static course begin_jobs(room *r) {
  static bool ids[KATCHIDUL_ID_MAX + 1];
  course c = GOES_ON;
  memset(ids, 0, sizeof ids);
  each_name(r->spool, "jobs", note_id, ids);
  for (uint32_t id = 1; id <= KATCHIDUL_ID_MAX && c == GOES_ON; id++)
    if (ids[id] && !r->passed_over[id] && room_find(r, id) == NULL) c = begin(r, id);
  return c;
}

/* ---- orders */

/* An id for a new job, or 0 if all are used. Folders may have been cleared, so an id is passed over if the embosser has finished pages
   of it. */
static course new_id(room *r, uint32_t *id) {
  uint32_t count;
  for (; r->next_id <= KATCHIDUL_ID_MAX; r->next_id++) {
    if (id_is_used(r->spool, r->next_id)) continue;
    course c = hear_count(r, r->next_id, &count);
    if (c != GOES_ON) return c;
    if (count == 0) break;
  }
  *id = r->next_id <= KATCHIDUL_ID_MAX ? r->next_id : 0;
  return GOES_ON;
}

static void refuse(room *r, const char *name, const char *why) {
  say("%s is refused: %s", name, why);
  refuse_order(r->spool, name, why);
  r->refused = true;
}

/* Reads an order that waits. If it cannot be read now but may be later, it waits on. If the host may not read it, or the library refuses
   it, it is refused. */
static bool read_order(room *r, const char *name, order *o) {
  int why = read_file(r->spool, path_of("in/%s", name).text, true, o->bytes, sizeof o->bytes, &o->length);
  if (o->length > sizeof o->bytes) o->length = sizeof o->bytes;
  katchidul_order asks = katchidul_read_order(o->bytes, o->length);
  if (why == 0 && asks.number == 0) return true;
  if (why == 0) refuse(r, name, refusal(asks.number, asks.place).text);
  else if (why == EACCES) refuse(r, name, trouble(why));
  else if (why == NOT_REGULAR) say_once(r, text_of("in/%s is passed over: %s", name, trouble(why)).text);
  else if (why != ENOENT) {
    say_once(r, text_of("%s waits: it cannot be read: %s", name, trouble(why)).text);
    r->refused = true;
  }
  return false;
}

static void say_taken(uint32_t id, const char *name, const order *o) {
  job j = {.id = id, .order = *o};
  strcpy(j.name, name);
  text label = job_label(&j);
  say("%s is taken, pages: %u", label.text, pages_of(o));
  say_refused_days(o, label.text);
}

/* Makes a job of an order, and begins it. */
static course take(room *r, const char *name) {
  order o;
  uint32_t id;
  if (!read_order(r, name, &o)) return GOES_ON;
  course c = new_id(r, &id);
  if (c != GOES_ON) return c;
  if (id == 0) {
    say_once(r, text_of("%s waits: all ids of jobs up to %u are used; a new spool is needed", name, KATCHIDUL_ID_MAX).text);
    r->refused = true;
    return GOES_ON;
  }
  int why = claim_order(r->spool, name, id);
  if (why == EEXIST) return take(r, name); /* a job came back under this id, so the next id is tried */
  if (why != 0) return GOES_ON;
  say_taken(id, name, &o);
  return begin(r, id);
}

/* Says once, for each order that comes to the front while the queue is full, that it waits. */
static void say_waits(room *r, const char *name) {
  if (name == NULL || strcmp(r->told_to_wait.text, name) == 0) return;
  say("%s waits: %u jobs are in the queue.", name, r->queue.jobs);
  r->told_to_wait = path_of("%s", name);
}

static bool has_place(const room *r) { return r->queue.jobs < KATCHIDUL_JOBS_MAX && r->count < ROOM_JOBS; }

course admit(room *r) {
  course c = take_asks(r);
  if (c == GOES_ON && (r->count == 0 || has_passed(r->look_at))) {
    c = begin_jobs(r);
    names_read(&r->waiting, r->spool, "in");
    r->look_at = after(LOOK);
  }
  while (c == GOES_ON && has_place(r) && names_front(&r->waiting) != NULL) c = take(r, names_take(&r->waiting));
  if (c == GOES_ON && r->queue.jobs == KATCHIDUL_JOBS_MAX) say_waits(r, names_front(&r->waiting));
  return c;
}
