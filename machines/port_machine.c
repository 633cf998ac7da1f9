/* A device or a network port as the machine. It takes bytes and reports nothing. So a page counts as done when its bytes are drained, and
   after a restart only the operator can say how many pages are finished. The record says that a page is sent before its first byte goes
   out, so a job without a record has had no page. */
#include "machine.h"
#include "port_channel.h"

#include <poll.h>
#include <string.h>

#define RETRY_MS 2000    /* until the machine is tried again */
#define LOOK_MS 100      /* between two looks at what drains */
#define SLOW_MS 30000    /* without a byte taken, after which the operator is told */
#define LAST_WAIT 20000  /* for the page in work when the driver is told to end: a page that is cut is half punched */

static const options *given;
static int state;
static sheet work; /* the page in work; its id is 0 when there is none */
static size_t written;
static uint32_t torn; /* the job of a page that was cut: nothing else goes out before the operator has cleared the machine */
static bool told_slow, told_away, told_wait;
static long long moved_at, retry_at;

void machine_open(const options *o, int folder) {
  given = o;
  state = folder;
  channel_name(o->machine);
}

/* ---- questions */

static void name_last_pages(const record *r, char *text, size_t size) {
  if (r->sent == r->finished + 1) snprintf(text, size, "page %u was sent", r->sent);
  else snprintf(text, size, "pages %u to %u were sent, the last ones %u and %u", r->finished + 1, r->sent, r->sent - 1, r->sent);
}

static void write_question(uint32_t id, const record *r, question *q) {
  char pages[96];
  name_last_pages(r, pages, sizeof pages);
  *q = (question){.id = id, .least = r->finished, .most = r->sent};
  snprintf(q->about, sizeof q->about,
           "Job %u (%s, %s): %s to %s, and page %u may be there in part. "
           "Take out what is half punched, and set the machine to the top of a page.",
           id, r->file, r->town, pages, given->machine, r->sent);
}

/* Whether it is known how many pages of a job are finished: no page was sent since it was known, or the operator has answered. */
static bool ask_about(uint32_t id, uint32_t *finished) {
  record r;
  question q;
  record_read(state, id, &r);
  *finished = r.finished;
  if (r.sent > r.finished) {
    write_question(id, &r, &q);
    question_ask(state, given->folder, &q);
    if (!question_answered(state, &q, finished)) return false;
    r.finished = r.sent = *finished;
    record_write(state, id, &r);
  }
  question_close(state, id);
  if (torn == id) torn = 0;
  return true;
}

/* ---- a page */

static bool waits_for_machine(const sheet *s) {
  channel_state now = now_ms() < retry_at ? CHANNEL_WAITS : channel_open();
  if (now == CHANNEL_READY) return false;
  if (now == CHANNEL_WAITS) return true;
  retry_at = now_ms() + RETRY_MS;
  if (!told_away)
    tell("job %u (%s, %s): page %u waits for the machine at %s: %s", s->id, s->file, s->town, s->page, given->machine, channel_why());
  told_away = true;
  return true;
}

bool machine_take(const char *spool, const sheet *s) {
  record r;
  uint32_t finished;
  (void)spool;
  if ((torn != 0 && !ask_about(torn, &finished)) || waits_for_machine(s)) return false;
  told_away = told_slow = false;
  record_read(state, s->id, &r);
  r.sent = s->page;
  strcpy(r.file, s->file);
  strcpy(r.town, s->town);
  record_write(state, s->id, &r);
  work = *s;
  written = 0;
  moved_at = now_ms();
  return true;
}

static progress lose(void) {
  tell("job %u (%s, %s): page %u may be there in part, the machine at %s failed: %s", work.id, work.file, work.town, work.page,
       given->machine, channel_why());
  torn = work.id;
  work.id = 0;
  return LOST;
}

progress machine_look(void) {
  if (work.id == 0) return LOST; /* the host asked for the job's count, and went away before it was told */
  ssize_t some = written < work.length ? channel_write(work.bytes + written, work.length - written) : 0;
  if (some < 0) return lose();
  if (some > 0) moved_at = now_ms(), written += (size_t)some;
  if (written == work.length) {
    channel_state now = channel_drain();
    if (now == CHANNEL_FAILED) return lose();
    if (now == CHANNEL_READY) return work.id = 0, FINISHED;
  }
  if (now_ms() - moved_at < SLOW_MS || told_slow) return GOES_ON;
  tell("job %u: the machine at %s has taken nothing of page %u for 30 seconds: check its paper and its power", work.id, given->machine, work.page);
  told_slow = true;
  return GOES_ON;
}

void machine_forget(void) { work.id = 0; }

wait_for machine_waits_for(void) {
  bool writes = work.id != 0 && written < work.length;
  return (wait_for){writes ? channel_fd() : -1, POLLOUT, writes ? SLOW_MS : LOOK_MS};
}

int machine_last_wait(void) { return LAST_WAIT; }

/* ---- a job's count */

/* If bytes of the job's page are on their way, the rest goes out first: nothing else can go into the machine before it. */
bool machine_settle(const char *spool, uint32_t id, uint32_t *finished) {
  (void)spool;
  if (work.id == id && machine_look() == GOES_ON) {
    if (!told_wait) tell("job %u: page %u is on its way into the machine, its count waits for that", id, work.page);
    told_wait = true;
    return false;
  }
  told_wait = false;
  return ask_about(id, finished);
}
