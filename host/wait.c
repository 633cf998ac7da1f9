#define _GNU_SOURCE
#include "wait.h"

#include <errno.h>
#include <poll.h>
#include <signal.h>
#include <stddef.h>
#include <string.h>
#include <time.h>

#include "say.h"

static volatile sig_atomic_t came;
static sigset_t as_before;

static moment now(void) {
  struct timespec t;
  clock_gettime(CLOCK_MONOTONIC, &t);
  return t.tv_sec * 1000LL + t.tv_nsec / 1000000;
}

moment after(int milliseconds) { return now() + milliseconds; }

bool has_passed(moment end) { return now() >= end; }

static void note_signal(int number) { came = number; }

void keep_back_signals(void) {
  struct sigaction noted = {.sa_handler = note_signal}, ignored = {.sa_handler = SIG_IGN};
  sigset_t ends;
  sigemptyset(&ends);
  sigaddset(&ends, SIGTERM);
  sigaddset(&ends, SIGINT);
  sigprocmask(SIG_BLOCK, &ends, &as_before);
  sigdelset(&as_before, SIGTERM);
  sigdelset(&as_before, SIGINT);
  sigaction(SIGTERM, &noted, NULL);
  sigaction(SIGINT, &noted, NULL);
  sigaction(SIGPIPE, &ignored, NULL); /* a message that nobody reads */
  sigaction(SIGXFSZ, &ignored, NULL); /* a write over a limit fails, and the host says so */
}

course wait_until(moment end, int file, short events, bool interrupted) {
  struct pollfd ready = {.fd = file, .events = events};
  for (;;) {
    moment left = end - now();
    if (left < 0) left = 0;
    struct timespec time = {.tv_sec = left / 1000, .tv_nsec = left % 1000 * 1000000L};
    int files = ppoll(&ready, 1, &time, interrupted ? &as_before : NULL);
    if (interrupted && came != 0) return TOLD_TO_END;
    if (files > 0) return GOES_ON;
    if (files == 0 && left == 0) return TOO_LATE;
    if (files < 0 && errno != EINTR) stop("waiting", strerror(errno));
  }
}

const char *told_to_end(void) {
  wait_until(now(), -1, 0, true);
  return came == 0 ? NULL : came == SIGTERM ? "SIGTERM" : "SIGINT";
}
