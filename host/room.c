#define _GNU_SOURCE
#include "room.h"

#include <string.h>

#define IDLE 1000 /* milliseconds between two looks at the spool */

job *room_find(room *r, uint32_t id) {
  for (uint32_t i = 0; i < r->count; i++)
    if (r->jobs[i].id == id) return &r->jobs[i];
  return NULL;
}

void room_clear(room *r) {
  r->count = 0;
  r->queue = (katchidul_queue){0};
  r->look_at = 0;
  memset(r->announced, 0, sizeof r->announced);
}

void room_drop(room *r, uint32_t id) {
  job *j = room_find(r, id);
  katchidul_queue kept = {0};
  for (uint32_t i = 0; i < r->queue.jobs; i++)
    if (r->queue.ids[i] != id) kept = katchidul_join(kept, r->queue.ids[i], r->queue.pages[i]).queue;
  r->queue = kept;
  if (j != NULL) *j = r->jobs[--r->count];
}

/* ---- pages */

course send_page(room *r, const job *j, uint32_t page) {
  uint8_t cells[KATCHIDUL_PAGE_CELLS];
  katchidul_cells made = page_cells(&j->order, page, cells);
  course c = r->announced[j->id] ? GOES_ON : link_send_order(&r->embosser, j);
  r->announced[j->id] = true;
  return c == GOES_ON ? link_send_page(&r->embosser, j->id, page, cells, made.rows) : c;
}

/* The host makes each record from the log, so it is in turn. If it is refused, that is the host's own mistake, and the host ends. */
static katchidul_log append(room *r, job *j, uint32_t tag, uint32_t page) {
  katchidul_log now = job_append(r->spool, j, tag, page);
  if (now.number != 0) stop(job_label(j).text, refusal(now.number, now.place).text);
  return now;
}

course send_next(room *r) {
  katchidul_turned turn = katchidul_turn(r->queue);
  job *j = room_find(r, turn.id);
  uint32_t page = job_log(j).sent + 1;
  append(r, j, KATCHIDUL_RECORD_SENT, page);
  r->queue = turn.queue;
  return send_page(r, j, page);
}

uint32_t open_pages(const room *r) {
  uint32_t open = 0;
  for (uint32_t i = 0; i < r->count; i++) {
    katchidul_log log = job_log(&r->jobs[i]);
    open += log.sent - log.finished;
  }
  return open;
}

/* ---- acknowledgements */

void say_progress(room *r, const job *j, uint32_t finished) {
  uint32_t pages = pages_of(&j->order);
  say("%s: page %u of %u, %u dots punched; pages left: %u, jobs: %u, orders: %zu", job_label(j).text, finished, pages,
      dots_through(&j->order, finished), pages - finished, r->count - (finished == pages), r->waiting.count - r->waiting.next);
}

void leave(room *r, job *j) {
  uint32_t id = j->id;
  text label = job_label(j);
  int why = move_job(r->spool, id, "jobs", "done", NULL);
  if (why == 0) say("%s: done", label.text);
  else say("%s: done, but it cannot be moved to done/: %s", label.text, trouble(why));
  r->passed_over[id] = why != 0;
  r->refused = r->refused || why != 0;
  room_drop(r, id);
}

/* A page is finished, and so are the job's earlier pages, whose acknowledgements may be lost. An answer about a page that was not sent
   is wrong. `news` is whether more pages are finished than before. */
static course note_done(room *r, const answer *a, bool *news) {
  job *j = room_find(r, a->id);
  *news = false;
  if (j == NULL) return GOES_ON;
  katchidul_log log = job_log(j);
  if (a->number > log.sent) return link_lost(&r->embosser, "it finished page %u of job %u, which was not sent", a->number, a->id);
  *news = a->number > log.finished;
  r->news = r->news || *news;
  while (log.finished < a->number) log = append(r, j, KATCHIDUL_RECORD_DONE, log.finished + 1);
  if (*news) say_progress(r, j, log.finished);
  if (log.finished == pages_of(&j->order)) leave(r, j);
  return GOES_ON;
}

/* An answer in time. If it is late, the link is lost. */
static course hear(room *r, moment end, answer *a) {
  course c = link_hear(&r->embosser, end, a);
  if (c == TOO_LATE) return link_lost(&r->embosser, "it gave no answer for %d ms", r->embosser.patience);
  return c;
}

static course not_asked(room *r) { return link_lost(&r->embosser, "it answered what was not asked"); }

course hear_done(room *r) {
  moment end = after(r->embosser.patience);
  bool news = false;
  for (answer a; !news;) {
    course c = hear(r, end, &a);
    if (c == GOES_ON) c = a.kind == DONE ? note_done(r, &a, &news) : not_asked(r);
    if (c != GOES_ON) return c;
  }
  return GOES_ON;
}

course wait_idle(room *r) {
  moment end = after(IDLE);
  bool news;
  for (answer a;;) {
    course c = link_hear(&r->embosser, end, &a);
    if (c == GOES_ON) c = a.kind == DONE ? note_done(r, &a, &news) : not_asked(r);
    if (c != GOES_ON) return c == TOO_LATE ? GOES_ON : c;
  }
}

course hear_count(room *r, uint32_t id, uint32_t *count) {
  moment end = after(r->embosser.patience);
  answer a;
  bool news;
  course c = link_ask_count(&r->embosser, id);
  for (;;) {
    if (c == GOES_ON) c = hear(r, end, &a);
    if (c != GOES_ON) return c;
    if (a.kind != DONE) break;
    c = note_done(r, &a, &news);
  }
  *count = a.number;
  return a.kind == COUNT && a.id == id ? GOES_ON : not_asked(r);
}
