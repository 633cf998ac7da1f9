/* The driver at work: the host's messages, the pages that wait, the page in work. It looks at the host's link and at the machine in turn,
   and never waits for one of them alone. */
#include "machine.h"

#include <poll.h>
#include <signal.h>
#include <string.h>

#define TRAY 8      /* pages that wait; the host has fewer open */
#define DROPPED 255 /* a job with a lost page: its pages are not taken until the host asks for its count */
#define ASK_MS 250  /* between two looks for an operator's answer */

static const options *given;
static int state;
static char serves[SPOOL_MAX + 2]; /* the spool that this machine serves, or none yet */
static volatile sig_atomic_t ending;

/* Of the present link. */
static bool named;                          /* the host has said its spool, and it is the right one */
static uint8_t next[KATCHIDUL_ID_MAX + 1];  /* the number that a job's next page must have, 0 before its count was told */
static uint32_t asked;                      /* the job whose count the host waits for, or 0 */
static sheet tray[TRAY];
static size_t waiting;

/* The page in work. It stays if the host goes away. */
static bool busy, known; /* known: the host that sent the page is still connected and waits for it */
static uint32_t work_id, work_page;

/* ---- the tray */

static void remove_at(size_t at) {
  memmove(tray + at, tray + at + 1, (waiting - at - 1) * sizeof *tray);
  waiting--;
}

static void drop_job(uint32_t id) {
  for (size_t i = waiting; i-- > 0;)
    if (tray[i].id == id) remove_at(i);
}

/* ---- the host's messages */

/* Forgets what belongs to a closed link. */
static void part(void) {
  named = known = false;
  asked = 0;
  waiting = 0;
  memset(next, 0, sizeof next);
  orders_forget();
}

static const char *take_spool(const message *m) {
  if (named) return "it named its spool twice";
  if (serves[0] == '\0') {
    write_lasting(state, ".", "serves", m->name, strlen(m->name));
    strcpy(serves, m->name);
    say("this machine now serves the spool %s", serves);
  }
  named = strcmp(serves, m->name) == 0;
  if (!named) say("a host of the spool %s is here, but this machine serves %s", m->name, serves);
  link_answer("serves %s\n", serves);
  return NULL;
}

static const char *take_restart(const message *m) {
  drop_job(m->id);
  if (busy && work_id == m->id) known = false;
  next[m->id] = 0;
  asked = m->id;
  return NULL;
}

static const char *take_job(const message *m) {
  return order_keep(m->id, m->name, m->body, m->length) ? NULL : "it sent an order that the library refuses";
}

static const char *take_page(const message *m) {
  const order *o = order_find(m->id);
  if (next[m->id] == DROPPED) return NULL;
  if (next[m->id] == 0) return "it sent a page before it asked for its job's count";
  if (o == NULL) return "it sent a page of a job that it did not tell of";
  if (m->page != next[m->id]) return "it sent a page out of turn";
  if (m->rows != order_page_rows(o, m->page)) return "its page has other rows than the order";
  for (size_t i = 0; i < m->length; i++)
    if (m->body[i] > 0x3f) return "its page has a cell with more than six dots";
  sheet_write(o, m->page, m->rows, m->body, &given->paper, &tray[waiting++]);
  next[m->id]++;
  return NULL;
}

/* Returns what is wrong with a message, or NULL. */
static const char *take(const message *m) {
  if (m->kind == SPOOL) return take_spool(m);
  if (m->kind == WRONG) return "its message is none of the link's";
  if (!named) return "it did not name the spool that this machine serves";
  if (m->kind == RESTART) return take_restart(m);
  return m->kind == JOB ? take_job(m) : take_page(m);
}

/* Nothing is read while the host waits for a count, or while there is no room for another page. */
static bool reads(void) { return asked == 0 && waiting < TRAY && !ending; }

static void take_all(void) {
  while (link_is_open() && reads()) {
    message m = link_next();
    if (m.kind == NOTHING_YET) break;
    const char *wrong = take(&m);
    if (wrong != NULL) link_close(wrong);
  }
}

/* ---- the machine */

/* The pages after a lost one wait for the host, which starts again when its deadline has passed. */
static void look(void) {
  progress p = machine_look();
  if (p == GOES_ON) return;
  busy = false;
  if (p == FINISHED) say("job %u: page %u is finished", work_id, work_page);
  if (p == FINISHED && known) link_answer("done %u %u\n", work_id, work_page);
  if (p == LOST && known) drop_job(work_id), next[work_id] = DROPPED;
}

static void work(void) {
  if (busy && asked != work_id) look();
  if (busy || waiting == 0 || ending || !machine_take(serves, &tray[0])) return;
  busy = known = true;
  work_id = tray[0].id;
  work_page = tray[0].page;
  remove_at(0);
}

static void settle(void) {
  uint32_t finished;
  if (asked == 0 || !machine_settle(serves, asked, &finished)) return;
  if (busy && work_id == asked) machine_forget(), busy = false;
  next[asked] = (uint8_t)(finished + 1);
  link_answer("count %u %u\n", asked, finished);
  asked = 0;
}

/* ---- turns */

static int least(int a, int b) { return a < 0 || (b >= 0 && b < a) ? b : a; }

/* Waits until there is something to do, and reads what the host says. */
static void wait_and_read(const sigset_t *while_waiting) {
  wait_for machine = busy || waiting > 0 ? machine_waits_for() : (wait_for){-1, 0, -1};
  bool open = link_is_open();
  struct pollfd files[3] = {{.fd = link_fd(), .events = !open || reads() ? POLLIN | POLLRDHUP : POLLRDHUP},
                            {.fd = machine.file, .events = machine.events},
                            {.fd = asked != 0 ? question_fd() : -1, .events = POLLIN}};
  int patience = least(least(link_patience(reads()), machine.patience), asked != 0 ? ASK_MS : -1);
  if (ending) patience = least(patience, ASK_MS);
  if (reads() && link_has_message()) patience = 0; /* it came while nothing was read */
  struct timespec time = {.tv_sec = patience / 1000, .tv_nsec = patience % 1000 * 1000000L};
  if (ppoll(files, 3, patience < 0 ? NULL : &time, while_waiting) <= 0 || files[0].revents == 0) return;
  if (!open) link_accept();
  else if (files[0].revents & POLLIN) link_read();
  else link_close(NULL);
}

static void end(int signal) { (void)signal, ending = 1; }

/* Signals that end the driver are taken only while it waits. */
static sigset_t hear_signals(void) {
  struct sigaction action = {.sa_handler = end};
  sigset_t blocked, before;
  sigemptyset(&blocked);
  sigaddset(&blocked, SIGTERM);
  sigaddset(&blocked, SIGINT);
  sigprocmask(SIG_BLOCK, &blocked, &before);
  sigaction(SIGTERM, &action, NULL);
  sigaction(SIGINT, &action, NULL);
  signal(SIGPIPE, SIG_IGN);
  signal(SIGXFSZ, SIG_IGN); /* a write over a limit fails, and the driver says so */
  sigdelset(&before, SIGTERM);
  sigdelset(&before, SIGINT);
  return before;
}

int serve(const options *o, int folder) {
  sigset_t while_waiting = hear_signals();
  long long last = 0;
  given = o;
  state = folder;
  read_small(state, "serves", serves, sizeof serves);
  machine_open(o, state);
  link_listen(o->socket);
  say("ready at %s for %s", o->socket, o->machine);
  for (;;) {
    wait_and_read(&while_waiting);
    take_all();
    if (!link_is_open()) part();
    work();
    settle();
    if (!link_is_open()) part();
    if (ending && last == 0) last = now_ms() + machine_last_wait();
    if (ending && (!busy || now_ms() >= last)) break;
  }
  link_close("the driver was told to end");
  link_unlink();
  return ENDED_WELL;
}
