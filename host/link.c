#define _GNU_SOURCE
#include "link.h"

#include <errno.h>
#include <poll.h>
#include <stdarg.h>
#include <stdio.h>
#include <string.h>
#include <sys/socket.h>
#include <sys/un.h>
#include <unistd.h>

#include "answer.h"

#define FILE_BYTES 100   /* of an order's file name in a message */
#define CONNECT_PAUSE 10 /* milliseconds between two tries to connect */

course link_lost(embosser *e, const char *format, ...) {
  va_list words;
  va_start(words, format);
  vsnprintf(e->lost.text, sizeof e->lost.text, format, words);
  va_end(words);
  return LINK_LOST;
}

/* ---- opening */

/* EAGAIN: the embosser is there but takes no connection now. It gets as much time as for an answer. */
static bool connect_in_time(embosser *e, const struct sockaddr_un *at) {
  moment end = after(e->patience);
  for (;;) {
    if (TEMP_FAILURE_RETRY(connect(e->socket, (const struct sockaddr *)at, sizeof *at)) == 0 || errno == EISCONN) return true;
    if (errno != EAGAIN || has_passed(end)) return false;
    if (wait_until(after(CONNECT_PAUSE), -1, 0, true) == TOLD_TO_END) return errno = EINTR, false;
  }
}

bool link_open(embosser *e, const char *path) {
  struct sockaddr_un at = {.sun_family = AF_UNIX};
  e->held = 0;
  e->socket = -1;
  errno = ENAMETOOLONG;
  if (strlen(path) >= sizeof at.sun_path) return false;
  strcpy(at.sun_path, path);
  e->socket = socket(AF_UNIX, SOCK_STREAM | SOCK_NONBLOCK | SOCK_CLOEXEC, 0);
  if (e->socket < 0) return false;
  if (connect_in_time(e, &at)) return true;
  int why = errno;
  link_close(e);
  errno = why;
  return false;
}

void link_close(embosser *e) {
  if (e->socket >= 0) close(e->socket);
  e->socket = -1;
}

/* ---- sending */

/* A signal does not interrupt this, since the host ends only between two messages. */
static course send_all(embosser *e, const char *bytes, size_t length) {
  moment end = after(e->patience);
  while (length > 0) {
    ssize_t some = TEMP_FAILURE_RETRY(send(e->socket, bytes, length, MSG_NOSIGNAL));
    if (some < 0 && errno != EAGAIN) return link_lost(e, "%s", strerror(errno));
    if (some > 0) bytes += some, length -= (size_t)some;
    else if (wait_until(end, e->socket, POLLOUT, false) != GOES_ON) return link_lost(e, "it took no message for %d ms", e->patience);
  }
  return GOES_ON;
}

course link_begin(embosser *e, const char *spool_name) {
  char line[LINE_BYTES];
  return send_all(e, line, (size_t)snprintf(line, sizeof line, "spool %s\n", spool_name));
}

course link_ask_count(embosser *e, uint32_t id) {
  char line[LINE_BYTES];
  return send_all(e, line, (size_t)snprintf(line, sizeof line, "restart %u\n", id));
}

/* A file's name as one word: each byte outside `!` to `~`, and `%`, is %XX. */
static void escape_name(char word[FILE_BYTES + 1], const char *name) {
  size_t at = 0;
  for (; *name != '\0'; name++) {
    bool plain = *name > ' ' && *name <= '~' && *name != '%';
    if (at + (plain ? 1 : 3) > FILE_BYTES) break;
    if (plain) word[at++] = *name;
    else at += (size_t)sprintf(word + at, "%%%02X", (unsigned char)*name);
  }
  word[at] = '\0';
}

course link_send_order(embosser *e, const job *j) {
  char bytes[LINE_BYTES + KATCHIDUL_ORDER_MAX], file[FILE_BYTES + 1];
  escape_name(file, j->name);
  size_t head = (size_t)snprintf(bytes, LINE_BYTES, "job %u %zu %s\n", j->id, j->order.length, file);
  memcpy(bytes + head, j->order.bytes, j->order.length);
  return send_all(e, bytes, head + j->order.length);
}

course link_send_page(embosser *e, uint32_t id, uint32_t page, const uint8_t *cells, uint32_t rows) {
  char bytes[LINE_BYTES + KATCHIDUL_PAGE_CELLS];
  size_t head = (size_t)snprintf(bytes, LINE_BYTES, "page %u %u %u\n", id, page, rows);
  memcpy(bytes + head, cells, rows * KATCHIDUL_ROW_CELLS);
  return send_all(e, bytes, head + rows * KATCHIDUL_ROW_CELLS);
}

/* ---- hearing */

/* Reads more of what the embosser sends. */
static course read_more(embosser *e, moment end) {
  course c = wait_until(end, e->socket, POLLIN, true);
  if (c != GOES_ON) return c;
  ssize_t some = TEMP_FAILURE_RETRY(recv(e->socket, e->bytes + e->held, sizeof e->bytes - e->held, 0));
  if (some < 0 && errno == EAGAIN) return GOES_ON;
  if (some < 0) return link_lost(e, "%s", strerror(errno));
  if (some == 0) return link_lost(e, "it closed the link");
  e->held += (size_t)some;
  return GOES_ON;
}

/* The next line, without its newline. It has no zero byte and no unprintable one. */
static course take_line(embosser *e, moment end, char line[LINE_BYTES]) {
  char *newline;
  while ((newline = memchr(e->bytes, '\n', e->held)) == NULL) {
    if (e->held == sizeof e->bytes) return link_lost(e, "it sent a line of over %d bytes", LINE_BYTES);
    course c = read_more(e, end);
    if (c != GOES_ON) return c;
  }
  size_t length = (size_t)(newline - e->bytes);
  memcpy(line, e->bytes, length);
  line[length] = '\0';
  e->held -= length + 1;
  memmove(e->bytes, newline + 1, e->held);
  for (size_t i = 0; i < length; i++)
    if (line[i] < ' ' || line[i] > '~') return link_lost(e, "it sent a line that is not printable ASCII");
  return GOES_ON;
}

course link_hear(embosser *e, moment end, answer *a) {
  char line[LINE_BYTES];
  while (!has_passed(end)) {
    course c = take_line(e, end, line);
    if (c != GOES_ON) return c;
    const char *sentence = sentence_of(line);
    if (sentence == NULL) return answer_read(line, a) ? GOES_ON : link_lost(e, "it sent what is no answer: %s", line);
    say("the embosser says: %s", sentence);
  }
  return TOO_LATE;
}
