/* katchidul-standin [-t MILLISECONDS] [-a PERCENT] [-l PERCENT] [-r SEED] SOCKET PUNCHED: a stand-in for the machine. It takes pages over
   a socket, as host/link.h says. It finishes them in the order in which they came, each in -t milliseconds, and appends all of them to
   PUNCHED: that no page comes twice is the host's task. It serves one host at a time, and one spool for good. If a host goes away, its
   pages stay in the tray and are still finished.
   -a: how many acknowledgements in a hundred are lost. -l: how many pages in work in a hundred are lost, with all of the tray; then the
   link closes. As many trays are lost when a host goes away. -r is the seed of these accidents. */
#define _GNU_SOURCE
#include "punched.h"

#include <poll.h>
#include <signal.h>
#include <stdio.h>
#include <stdlib.h>
#include <string.h>
#include <sys/socket.h>
#include <sys/un.h>
#include <time.h>
#include <unistd.h>

#define TRAY 64

typedef struct {
  int page_time, lost_acknowledgements, lost_pages;
} habits;

static habits does;
static int listener = -1, host = -1;
static bool met; /* the host's spool is the one that is served */
static sheet tray[TRAY];
static bool known[TRAY]; /* whether the host that sent it is there */
static size_t waiting;
static char text[2 * MESSAGE_BYTES];
static size_t held;
static long long begun; /* when the page in work was begun */

static long long now(void) {
  struct timespec t;
  clock_gettime(CLOCK_MONOTONIC, &t);
  return t.tv_sec * 1000LL + t.tv_nsec / 1000000;
}

static bool accident(int percent) { return random() % 100 < percent; }

static void part(void) {
  if (host >= 0) close(host);
  host = -1;
  held = 0;
  met = false;
  memset(known, 0, sizeof known);
  if (accident(does.lost_pages)) waiting = 0;
}

static void answer(const char *line) {
  if (host >= 0 && send(host, line, strlen(line), MSG_NOSIGNAL) != (ssize_t)strlen(line)) part();
}

static void answer_numbers(const char *word, uint32_t id, uint32_t number) {
  char line[LINE_BYTES];
  snprintf(line, sizeof line, "%s %u %u\n", word, id, number);
  answer(line);
}

static void fail(void) {
  perror("katchidul-standin");
  exit(1);
}

/* ---- messages */

static void remove_at(size_t at) {
  memmove(tray + at, tray + at + 1, (waiting - at - 1) * sizeof *tray);
  memmove(known + at, known + at + 1, (waiting - at - 1) * sizeof *known);
  waiting--;
}

/* The job's unfinished pages are dropped before its count is told. */
static void restart(uint32_t id) {
  for (size_t i = waiting; i-- > 0;)
    if (tray[i].id == id) remove_at(i);
  answer_numbers("count", id, punched_count(id));
}

static void meet(const char *asking) {
  char name[NAME_BYTES + 1], line[LINE_BYTES];
  if (!punched_serves(asking, name)) fail();
  met = strcmp(name, asking) == 0;
  snprintf(line, sizeof line, "serves %s\n", name);
  answer(line);
}

static void lay_in_tray(const message *m) {
  sheet *s = &tray[waiting];
  *s = (sheet){.id = m->id, .page = m->page, .length = m->length};
  memcpy(s->bytes, text, m->length);
  if (waiting == 0) begun = now();
  known[waiting++] = true;
}

/* Takes the message at the front of what came; false if there is none. */
static bool take(void) {
  message m = message_from(text, held);
  if (m.kind == UNFINISHED || (m.kind == PAGE && waiting == TRAY)) return false;
  if (m.kind == NO_MESSAGE || (m.kind == SPOOL) == met) {
    fprintf(stderr, "katchidul-standin: the host sent what is no message, or out of turn\n");
    part();
    return false;
  }
  if (m.kind == SPOOL) meet(m.name);
  if (m.kind == RESTART) restart(m.id);
  if (m.kind == PAGE) lay_in_tray(&m);
  if (host < 0) return false; /* the host went away before its answer, so what it said is dropped */
  held -= m.length;
  memmove(text, text + m.length, held);
  return true;
}

static void hear(void) {
  ssize_t some = recv(host, text + held, sizeof text - held, 0);
  if (some <= 0) part();
  else held += (size_t)some;
}

/* ---- pages */

static void finish(void) {
  uint32_t id = tray[0].id, page = tray[0].page;
  bool heard = known[0] && !accident(does.lost_acknowledgements);
  if (accident(does.lost_pages)) {
    waiting = 0;
    part();
    return;
  }
  if (!punched_append(&tray[0])) fail();
  remove_at(0);
  begun = now();
  if (heard) answer_numbers("done", id, page);
}

/* While the tray is full nothing more is read. */
static void serve(void) {
  for (;;) {
    long long left = begun + does.page_time - now();
    struct pollfd ready = {.fd = host < 0 ? listener : held < sizeof text ? host : -1, .events = POLLIN};
    if (poll(&ready, 1, waiting == 0 ? -1 : left > 0 ? (int)left : 0) > 0) {
      if (host < 0) host = accept(listener, NULL, NULL);
      else hear();
    }
    while (host >= 0 && take()) continue;
    if (waiting > 0 && begun + does.page_time <= now()) finish();
  }
}

/* ---- the command */

static bool listen_at(const char *path) {
  struct sockaddr_un at = {.sun_family = AF_UNIX};
  if (strlen(path) >= sizeof at.sun_path) return false;
  strcpy(at.sun_path, path);
  unlink(path);
  listener = socket(AF_UNIX, SOCK_STREAM | SOCK_CLOEXEC, 0);
  return listener >= 0 && bind(listener, (const struct sockaddr *)&at, sizeof at) == 0 && listen(listener, 4) == 0;
}

int main(int count, char **words) {
  bool right = true;
  for (int option; (option = getopt(count, words, "t:a:l:r:")) != -1;) {
    if (option == 't') does.page_time = atoi(optarg);
    if (option == 'a') does.lost_acknowledgements = atoi(optarg);
    if (option == 'l') does.lost_pages = atoi(optarg);
    if (option == 'r') srandom((unsigned)atoi(optarg));
    right = right && option != '?';
  }
  if (!right || count - optind != 2) {
    fprintf(stderr, "usage: katchidul-standin [-t MILLISECONDS] [-a PERCENT] [-l PERCENT] [-r SEED] SOCKET PUNCHED\n");
    return 2;
  }
  signal(SIGPIPE, SIG_IGN);
  if (!punched_open(words[optind + 1]) || !listen_at(words[optind])) fail();
  puts("katchidul-standin: ready");
  fflush(stdout);
  serve();
}
