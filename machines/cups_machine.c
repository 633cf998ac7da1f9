/* A CUPS queue as the machine. A page is one CUPS job, and the job's title names spool, job and page:

       katchidul SPOOL job 7 page 3

   A page goes to CUPS only when CUPS has completed the one before it, so the highest page that CUPS has completed is the job's count.
   CUPS keeps it if the driver dies, and the driver's record keeps it if CUPS forgets.

   CUPS makes a job first and takes its document later. The record has the CUPS job's number before the document goes out, so a CUPS job
   that is not in the record has printed nothing. If a job is in the record but CUPS no longer knows it, it may have been printed, and only
   the operator can say. The same is true of a page that CUPS had in work when it ended. CUPS aborts a job whose document it has removed,
   even one that it had completed but could not note as completed. And a ghost (cups_calls.h) tells nothing. */
#include "cups_calls.h"
#include "machine.h"

#include <cups/ipp.h>
#include <stdarg.h>
#include <string.h>

#define LOOK_MS 200    /* between two looks at a page in work */
#define RETRY_MS 2000  /* until CUPS is asked again after it could not be reached */
#define SLOW_MS 30000  /* after which the operator is told that a page takes long */

static const options *given;
static int state;
static char told[SAYS_MAX + 1]; /* what the operator was told last */

/* The page in work. */
static struct {
  uint32_t id, page;
  record record;
  char title[TITLE_BYTES];
  bool unsent; /* CUPS did not say that it has the document */
  long long since, look_at;
} work;

static long long retry_at;

/* The job whose count is asked for. */
static struct {
  uint32_t id;
  long long since, look_at;
} asked;

/* Tells the operator something once, until there is something else to tell. */
__attribute__((format(printf, 1, 2))) static void tell_once(const char *format, ...) {
  char words[SAYS_MAX + 1];
  va_list rest;
  va_start(rest, format);
  vsnprintf(words, sizeof words, format, rest);
  va_end(rest);
  if (strcmp(words, told) == 0) return;
  strcpy(told, words);
  tell("%s", words);
}

void machine_open(const options *o, int folder) {
  cups_queue queue;
  given = o;
  state = folder;
  cups_open(o);
  cups_reply reply = cups_look_at_queue(&queue);
  if (reply == CUPS_REFUSED) stop(o->machine, "CUPS has no such queue; 'lpstat -e' lists those that there are");
  if (reply == CUPS_AWAY) say("%s; the driver waits for it", cups_why());
  if (strncmp(queue.policy, "retry", 5) == 0)
    say("the queue %s has the error policy %s, by which CUPS may print a page again by itself; to change it: "
        "lpadmin -p %s -o printer-error-policy=stop-printer",
        o->machine, queue.policy, o->machine);
}

/* ---- titles */

static void write_title(const char *spool, uint32_t id, uint32_t page, char title[TITLE_BYTES]) {
  snprintf(title, TITLE_BYTES, "katchidul %s job %u page %u", spool, id, page);
}

/* The page that a title names, or 0 if the title is not of this job. */
static uint32_t page_of(const char *title, const char *spool, uint32_t id) {
  char wanted[TITLE_BYTES];
  for (uint32_t page = 1; page <= KATCHIDUL_PAGES_MAX; page++) {
    write_title(spool, id, page, wanted);
    if (strcmp(title, wanted) == 0) return page;
  }
  return 0;
}

static bool is_over(const cups_job *job) { return job->state >= IPP_JSTATE_CANCELED; }

/* ---- a page */

static void tell_stopped(const cups_queue *queue, uint32_t id, uint32_t page) {
  tell_once("the queue %s is stopped (%s), page %u of job %u waits; to start it: cupsenable %s", given->machine, queue->words, page, id,
            given->machine);
}

/* If a stopped queue had a page, the page would be cancelled each time the host starts again. */
static bool queue_goes(const sheet *s) {
  cups_queue queue;
  if (cups_look_at_queue(&queue) != CUPS_ANSWERED || !queue.stopped) return true;
  tell_stopped(&queue, s->id, s->page);
  retry_at = now_ms() + RETRY_MS;
  return false;
}

bool machine_take(const char *spool, const sheet *s) {
  uint32_t number;
  if (now_ms() < retry_at || !queue_goes(s)) return false;
  write_title(spool, s->id, s->page, work.title);
  cups_watch();
  if (cups_create(work.title, &number) != CUPS_ANSWERED) {
    tell_once("job %u (%s, %s): page %u waits, CUPS does not take it: %s", s->id, s->file, s->town, s->page, cups_why());
    retry_at = now_ms() + RETRY_MS;
    return false;
  }
  work.id = s->id;
  work.page = s->page;
  work.record = (record){.finished = s->page - 1, .sent = s->page, .cups = number};
  strcpy(work.record.file, s->file);
  strcpy(work.record.town, s->town);
  record_write(state, s->id, &work.record);
  work.unsent = cups_send(number, s->bytes, s->length) != CUPS_ANSWERED;
  work.since = now_ms();
  work.look_at = 0;
  if (work.unsent) tell_once("job %u: CUPS did not say that it has page %u: %s", s->id, s->page, cups_why());
  return true;
}

static progress finish(void) {
  work.record.finished = work.page;
  work.record.cups = 0;
  record_write(state, work.id, &work.record);
  machine_forget();
  told[0] = '\0';
  return FINISHED;
}

static progress lose(const char *why) {
  record *r = &work.record;
  tell_once("job %u (%s, %s): page %u does not count as finished, its CUPS job %u %s", work.id, r->file, r->town, work.page, r->cups, why);
  return LOST;
}

/* CUPS ran all the time, so what it says of the page is true: it was aborted. That is noted for good. */
static progress note_aborted(void) {
  work.record.sent = work.record.finished;
  record_write(state, work.id, &work.record);
  return lose("was aborted by CUPS");
}

/* Tells why CUPS has not begun a page, or why the page takes long. */
static void tell_what_keeps(const cups_job *job) {
  cups_queue queue;
  uint32_t number = work.record.cups;
  if (job->state == IPP_JSTATE_HELD && !cups_waits_for_document(job))
    tell_once("job %u: page %u is held in CUPS; to let it go: lp -i %u -H resume", work.id, work.page, number);
  else if (job->state == IPP_JSTATE_STOPPED)
    tell_once("job %u: page %u is stopped in CUPS, job %u (%s)", work.id, work.page, number, job->reason);
  else if (cups_look_at_queue(&queue) != CUPS_ANSWERED) return;
  else if (queue.stopped) tell_stopped(&queue, work.id, work.page);
  else if (now_ms() - work.since > SLOW_MS)
    tell_once("job %u: page %u takes long in CUPS, job %u: %s", work.id, work.page, number, queue.words);
}

progress machine_look(void) {
  cups_job job;
  if (now_ms() < work.look_at) return GOES_ON;
  work.look_at = now_ms() + LOOK_MS;
  cups_reply reply = cups_look(work.record.cups, &job);
  bool ghost = false;
  if (reply == CUPS_ANSWERED && !is_over(&job) && !cups_was_there()) reply = cups_is_ghost(job.number, &ghost);
  if (reply == CUPS_AWAY) {
    tell_once("job %u: page %u is in CUPS, which does not answer: %s", work.id, work.page, cups_why());
    work.look_at = now_ms() + RETRY_MS;
    return GOES_ON;
  }
  if (reply == CUPS_REFUSED || strcmp(job.title, work.title) != 0) return lose("is gone from CUPS");
  if (ghost) return lose("was in work when CUPS ended");
  if (job.state == IPP_JSTATE_COMPLETED) return finish();
  if (job.state == IPP_JSTATE_CANCELED) return lose("was cancelled");
  if (job.state == IPP_JSTATE_ABORTED) return cups_was_there() ? note_aborted() : lose("was aborted when CUPS began again");
  if (work.unsent && cups_waits_for_document(&job)) cups_cancel(job.number);
  else tell_what_keeps(&job);
  return GOES_ON;
}

void machine_forget(void) {
  memset(&work, 0, sizeof work);
  cups_unwatch();
}

wait_for machine_waits_for(void) { return (wait_for){-1, 0, LOOK_MS}; }

int machine_last_wait(void) { return 0; } /* CUPS goes on without the driver, and the record has its job */

/* ---- a job's count */

typedef struct {
  const char *spool;
  uint32_t id, cups;    /* the job, and the CUPS job that its record has */
  uint32_t highest;     /* the highest page that CUPS has completed */
  bool found;           /* CUPS has that job, and says for certain what became of it */
  bool open;            /* not all that CUPS has of the job is over */
  bool queue_processes;
} tally;

/* Waits some time for a page that is being printed: a page that is cancelled then is in the tray half punched. */
static bool may_finish(const tally *t, const cups_job *job, uint32_t page) {
  if (job->state != IPP_JSTATE_PROCESSING || now_ms() - asked.since >= given->finish * 1000LL) return false;
  tell_once("job %u: CUPS is printing page %u (job %u); the driver waits up to %u seconds for it", t->id, page, job->number, given->finish);
  return true;
}

/* CUPS says at once that a job is cancelled, and stops its printing a little later. A job that never began has the same reason. */
static bool still_stops(const cups_job *job) {
  cups_job now;
  if (strcmp(job->reason, "processing-to-stop-point") != 0) return false;
  return cups_look(job->number, &now) != CUPS_ANSWERED || now.begun;
}

/* Whether CUPS has run since it was given the page in the record. Then what it says of the page is true. */
static bool is_certain(const tally *t) { return work.record.cups == t->cups && cups_was_there(); }

/* A job that is not over is waited for or cancelled, and looked at again. */
static void drop_job(tally *t, const cups_job *job, uint32_t page) {
  bool ghost = false, doubtful = job->number == t->cups && !is_certain(t);
  cups_reply reply = doubtful ? cups_is_ghost(job->number, &ghost) : CUPS_ANSWERED;
  if (ghost) return;
  t->open = true;
  if (reply == CUPS_ANSWERED && !may_finish(t, job, page)) cups_cancel(job->number);
}

static void count_job(const cups_job *job, void *own) {
  tally *t = own;
  uint32_t page = page_of(job->title, t->spool, t->id);
  if (page == 0) return;
  if (!is_over(job)) {
    drop_job(t, job, page);
    return;
  }
  if (job->number == t->cups) t->found = job->state != IPP_JSTATE_ABORTED || is_certain(t);
  if (job->state == IPP_JSTATE_COMPLETED && page > t->highest) t->highest = page;
  if (job->state == IPP_JSTATE_CANCELED && job->number == t->cups && t->queue_processes && still_stops(job)) t->open = true;
}

/* CUPS has forgotten a page that it was given: the operator is asked whether it was printed. */
static bool ask_operator(uint32_t id, const record *r, uint32_t highest, uint32_t *finished) {
  question q = {.id = id, .least = highest, .most = r->sent};
  snprintf(q.about, sizeof q.about,
           "Job %u (%s, %s): page %u, the last one sent, was CUPS job %u of the queue %s. "
           "CUPS does not know what became of it.",
           id, r->file, r->town, r->sent, r->cups, given->machine);
  question_ask(state, given->folder, &q);
  return question_answered(state, &q, finished);
}

/* The operator's answer is noted for good before the CUPS job is cancelled. It is cancelled so that CUPS does not print it after all. */
static void keep(uint32_t id, record *r, uint32_t finished) {
  uint32_t number = r->cups;
  bool same = r->finished == finished && r->sent == finished && number == 0;
  r->finished = r->sent = finished;
  r->cups = 0;
  if (!same) record_write(state, id, r);
  if (number != 0) cups_cancel(number);
  question_close(state, id);
  memset(&asked, 0, sizeof asked);
}

bool machine_settle(const char *spool, uint32_t id, uint32_t *finished) {
  record r;
  cups_queue queue;
  if (asked.id != id) asked.id = id, asked.since = now_ms(), asked.look_at = 0;
  if (now_ms() < asked.look_at) return false;
  asked.look_at = now_ms() + LOOK_MS;
  record_read(state, id, &r);
  tally t = {.spool = spool, .id = id, .cups = r.cups, .highest = r.finished};
  if (cups_look_at_queue(&queue) != CUPS_AWAY) t.queue_processes = queue.processes;
  if (cups_list(count_job, &t) != CUPS_ANSWERED) {
    tell_once("the count of job %u waits for CUPS: %s", id, cups_why());
    asked.look_at = now_ms() + RETRY_MS;
    return false;
  }
  if (t.open) return false;
  *finished = t.highest;
  if (r.cups != 0 && t.highest < r.sent && !t.found && !ask_operator(id, &r, t.highest, finished)) {
    asked.look_at = now_ms() + RETRY_MS;
    return false;
  }
  keep(id, &r, *finished);
  return true;
}
