/* katchidul-host [-p MILLISECONDS] [-s] SPOOL SOCKET: embosses the orders of a spool. katchidul-host.8 is its manual page. */
#define _GNU_SOURCE
#include <errno.h>
#include <stdio.h>
#include <stdlib.h>
#include <string.h>
#include <unistd.h>

#include "intake.h"

#define PATIENCE 60000        /* milliseconds, if -p is not given */
#define PATIENCE_MAX 86400000 /* a day */
#define SOON 250              /* milliseconds between the first tries to reach the embosser */
#define SOON_TRIES 4          /* with that pause after them: a driver that was started a moment ago listens soon */
#define TRIES 14              /* in all, without -s */

/* ---- the embosser comes and goes */

/* Milliseconds between two tries: a tenth of the patience, and never 0. */
static int pause_of(const room *r) { return r->embosser.patience / 10 + 1; }

static int pause_after(const room *r, int tries) { return tries <= SOON_TRIES && SOON < pause_of(r) ? SOON : pause_of(r); }

/* The embosser says which spool it serves; it must be this one. */
static course hear_serves(room *r) {
  embosser *e = &r->embosser;
  answer a;
  course c = link_begin(e, r->spool_name);
  if (c == GOES_ON) c = link_hear(e, after(e->patience), &a);
  if (c == TOO_LATE) return link_lost(e, "it does not answer");
  if (c != GOES_ON) return c;
  if (a.kind != SERVES) return link_lost(e, "it does not say which spool it serves");
  if (strcmp(a.name, r->spool_name) == 0) return GOES_ON;
  return link_lost(e, "it serves the spool %s, and this is %s: nothing is sent", a.name, r->spool_name);
}

static course meet(room *r, const char *path) {
  embosser *e = &r->embosser;
  if (!link_open(e, path)) {
    if (errno == EAGAIN) return link_lost(e, "the embosser at %s takes no connection", path);
    return link_lost(e, "there is no embosser at %s: %s", path, strerror(errno));
  }
  course c = hear_serves(r);
  if (c == GOES_ON) return c;
  link_close(e);
  if (c == LINK_LOST) e->lost = text_of("the embosser at %s: %s", path, e->lost.text);
  return c;
}

/* Without -s the host gives up after some tries. With -s it waits, and says so once for each reason. */
static course find_embosser(room *r, const char *path) {
  text told = {""};
  for (int tries = 1;; tries++) {
    course c = meet(r, path);
    if (c == GOES_ON && told.text[0] != '\0') say("the embosser is back");
    if (c != LINK_LOST) return c;
    if (told_to_end() != NULL) return TOLD_TO_END;
    if (!r->stays && tries == TRIES) return say("%s", r->embosser.lost.text), LINK_LOST;
    if (r->stays && strcmp(told.text, r->embosser.lost.text) != 0) {
      told = r->embosser.lost;
      say("%s; waiting for it", told.text);
    }
    if (wait_until(after(pause_after(r, tries)), -1, 0, true) == TOLD_TO_END) return TOLD_TO_END;
  }
}

/* ---- work */

static course step(room *r) {
  if (r->queue.jobs > 0 && open_pages(r) < OPEN_MAX_PAGES) return send_next(r);
  if (r->count > 0) return hear_done(r);
  return r->stays ? wait_idle(r) : NOTHING_LEFT;
}

static course work(room *r) {
  room_clear(r);
  for (;;) {
    course c = told_to_end() != NULL ? TOLD_TO_END : admit(r);
    if (c == GOES_ON) c = step(r);
    if (c != GOES_ON) return c;
  }
}

/* Says it once, until a page is finished or the reason changes: a driver may ask its operator for a count for hours. */
static void say_lost(room *r) {
  static text told;
  if (r->news || strcmp(told.text, r->embosser.lost.text) != 0)
    say("the link to the embosser is lost: %s; beginning again", r->embosser.lost.text);
  told = r->embosser.lost;
  r->news = false;
}

/* After a lost link the host starts again, as at any other start. */
static int serve(room *r, const char *path) {
  for (;;) {
    course c = find_embosser(r, path);
    if (c == LINK_LOST) return ENDED_WITHOUT_EMBOSSER;
    if (c == GOES_ON) c = work(r);
    link_close(&r->embosser);
    if (c == NOTHING_LEFT) return r->refused ? ENDED_WITH_REFUSALS : ENDED_WELL;
    if (c == LINK_LOST) say_lost(r);
    if (c == LINK_LOST) c = wait_until(after(pause_of(r)), -1, 0, true);
    if (c != TOLD_TO_END) continue;
    say("%s ends the host; jobs in work: %u", told_to_end(), r->count);
    return r->stays ? ENDED_WELL : ENDED_BY_SIGNAL;
  }
}

/* ---- the command */

static int usage(void) {
  fprintf(stderr, "usage: katchidul-host [-p MILLISECONDS] [-s] SPOOL SOCKET\n");
  return ENDED_BY_DISK;
}

/* Milliseconds from 1 to a day, in digits alone; else 0. */
static int patience_of(const char *word) {
  if (strlen(word) > 8 || strspn(word, "0123456789") != strlen(word)) return 0;
  long patience = strtol(word, NULL, 10);
  return patience <= PATIENCE_MAX ? (int)patience : 0;
}

int main(int count, char **words) {
  static room r;
  bool right = true;
  keep_streams();
  r.embosser.patience = PATIENCE;
  for (int option; (option = getopt(count, words, "p:s")) != -1;) {
    if (option == 'p') r.embosser.patience = patience_of(optarg);
    r.stays = r.stays || option == 's';
    right = right && option != '?';
  }
  if (!right || count - optind != 2 || r.embosser.patience < 1) return usage();
  if (!katchidul_environment_is_default()) stop("the floating-point environment", "not the one that the answers are proved for");
  keep_back_signals();
  r.spool = open_spool(words[optind]);
  read_spool_name(r.spool, r.spool_name);
  r.next_id = id_above_all(r.spool);
  return serve(&r, words[optind + 1]);
}
