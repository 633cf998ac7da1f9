/* What the operator asks for: a file asks/WORD.ID, taken between two pages. */
#define _GNU_SOURCE
#include <string.h>

#include "intake.h"

typedef struct {
  text label, how_far;
  bool gone; /* its last page was finished meanwhile */
} stopped;

/* Takes a job in jobs/ out of work. The embosser drops its unfinished pages, and the log says how far it came. */
static course stop_job(room *r, uint32_t id, stopped *s) {
  static job read;
  uint32_t count;
  job *j = room_find(r, id);
  bool in_work = j != NULL;
  *s = (stopped){.how_far = text_of("its order is missing")};
  bool readable = in_work || job_read(r->spool, "jobs", id, &read, &s->how_far) == JOB_READ;
  if (!in_work) j = &read;
  s->label = job_label(j);
  if (!readable) return GOES_ON;
  course c = hear_count(r, id, &count);
  if (c != GOES_ON) return c;
  if (in_work) j = room_find(r, id);
  if ((s->gone = j == NULL)) return GOES_ON;
  katchidul_log now = job_restart(r->spool, j, count);
  if (now.number != 0) s->how_far = refusal(now.number, now.place);
  else s->how_far = text_of("%u of %u pages are finished", now.finished, pages_of(&j->order));
  room_drop(r, id);
  return GOES_ON;
}

static void say_moved(room *r, uint32_t id, const char *label, const char *from, const char *to, const char *why) {
  int failed = move_job(r->spool, id, from, to, why);
  if (failed != 0) say("%s stays in %s/: it cannot be moved to %s/: %s", label, from, to, trouble(failed));
  else if (why == NULL) say("%s is released", label);
  else say("%s: %s", label, why);
  if (strcmp(from, "jobs") == 0) r->passed_over[id] = failed != 0;
}

static course stop_and_move(room *r, uint32_t id, const char *to, const char *what) {
  stopped s;
  course c = stop_job(r, id, &s);
  if (c != GOES_ON) return c;
  if (s.gone) say("%s is done already", s.label.text);
  else say_moved(r, id, s.label.text, "jobs", to, text_of("%s by the operator: %s", what, s.how_far.text).text);
  return GOES_ON;
}

/* ---- the three words */

/* Whether jobs/ has this job. A folder without an order is no job, and is removed. */
static bool is_in_work(room *r, uint32_t id) {
  static job read;
  text why;
  if (!job_is_in(r->spool, "jobs", id)) return false;
  return job_read(r->spool, "jobs", id, &read, &why) != JOB_UNCLAIMED || !drop_unclaimed(r->spool, id);
}

static text held_label(room *r, uint32_t id) {
  static job read;
  text why;
  job_read(r->spool, "held", id, &read, &why);
  return job_label(&read);
}

static course cancel(room *r, uint32_t id) {
  if (is_in_work(r, id)) return stop_and_move(r, id, "cancelled", "cancelled");
  if (job_is_in(r->spool, "held", id))
    say_moved(r, id, held_label(r, id).text, "held", "cancelled", "cancelled by the operator when it was held");
  else say("job %u is not cancelled: it is neither in work nor held", id);
  return GOES_ON;
}

static course hold_asked(room *r, uint32_t id) {
  if (is_in_work(r, id)) return stop_and_move(r, id, "held", "held");
  say("job %u is not held: it is not in work", id);
  return GOES_ON;
}

static course release(room *r, uint32_t id) {
  if (job_is_in(r->spool, "held", id)) say_moved(r, id, held_label(r, id).text, "held", "jobs", NULL);
  else say("job %u is not released: it is not held", id);
  r->passed_over[id] = false;
  r->look_at = 0;
  return GOES_ON;
}

static const struct {
  const char *word;
  course (*take)(room *r, uint32_t id);
} words[] = {{"cancel.", cancel}, {"hold.", hold_asked}, {"release.", release}};

/* ---- the files */

static course take_ask(room *r, const char *name) {
  for (size_t i = 0; i < sizeof words / sizeof *words; i++) {
    size_t length = strlen(words[i].word);
    uint32_t id = strncmp(name, words[i].word, length) == 0 ? id_of(name + length) : 0;
    if (id == 0) continue;
    if (!is_regular(r->spool, path_of("asks/%s", name).text)) break; /* a folder would be asked for without end */
    course c = words[i].take(r, id);
    if (c == GOES_ON) remove_lasting(r->spool, "asks", name);
    return c;
  }
  say_once(r, text_of("asks/%s is passed over: it is no file cancel.ID, hold.ID or release.ID", name).text);
  return GOES_ON;
}

course take_asks(room *r) {
  static names asked;
  course c = GOES_ON;
  names_read(&asked, r->spool, "asks");
  for (const char *name; c == GOES_ON && (name = names_take(&asked)) != NULL;) c = take_ask(r, name);
  return c;
}
