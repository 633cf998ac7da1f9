/* The host's link, from the machine's side: a socket that one host at a time is connected to. The host says, a line each,

       spool NAME             the first line; answered by   serves NAME
       restart ID             answered by                   count ID PAGES
       job ID BYTES FILE      and then the order's bytes; not answered
       page ID PAGE ROWS      and then ROWS * 39 cells; answered by   done ID PAGE

   and the driver may send `says TEXT` at any time. Any other message closes the link. So does a message that is begun but not whole in
   time, and a host that does not read its answers. */
#include "driver.h"

#include <errno.h>
#include <fcntl.h>
#include <poll.h>
#include <stdarg.h>
#include <string.h>
#include <sys/socket.h>
#include <sys/stat.h>
#include <sys/un.h>
#include <unistd.h>

#ifndef MESSAGE_MS /* milliseconds that a message may take from its first byte to its last, and a new host to its first message */
#define MESSAGE_MS 30000
#endif
#define TEXT_BYTES (LINE_MAX_BYTES + KATCHIDUL_ORDER_MAX)

static int listener = -1, host = -1;
static struct sockaddr_un address = {.sun_family = AF_UNIX};
static char text[TEXT_BYTES]; /* what came */
static size_t held, taken;    /* bytes in `text`, and those at its front that link_next has returned */
static long long begun;       /* when the message that is not whole began */
static bool waits;            /* whether a message is begun and not whole */

/* ---- the socket */

/* If nobody listens on a socket, it is left from a driver that was killed. */
static void remove_leftover(const char *path) {
  struct stat is;
  if (lstat(path, &is) != 0) return;
  if (!S_ISSOCK(is.st_mode)) stop(path, "a file that is no socket is in the way");
  int probe = socket(AF_UNIX, SOCK_STREAM | SOCK_NONBLOCK | SOCK_CLOEXEC, 0);
  if (probe < 0) stop(path, strerror(errno));
  bool heard = connect(probe, (const struct sockaddr *)&address, sizeof address) == 0 || errno == EAGAIN;
  close(probe);
  if (heard) stop(path, "another driver listens here");
  unlink(path);
}

void link_listen(const char *path) {
  if (strlen(path) >= sizeof address.sun_path) stop(path, "the socket's name is too long");
  strcpy(address.sun_path, path);
  remove_leftover(path);
  listener = socket(AF_UNIX, SOCK_STREAM | SOCK_NONBLOCK | SOCK_CLOEXEC, 0);
  if (listener < 0 || bind(listener, (const struct sockaddr *)&address, sizeof address) != 0 || listen(listener, 4) != 0)
    stop(path, strerror(errno));
}

void link_unlink(void) { unlink(address.sun_path); }

int link_fd(void) { return host >= 0 ? host : listener; }

bool link_is_open(void) { return host >= 0; }

void link_accept(void) {
  host = accept4(listener, NULL, NULL, SOCK_NONBLOCK | SOCK_CLOEXEC);
  if (host < 0 && errno != EAGAIN) poll(NULL, 0, 100); /* no file is free; one may be soon */
  held = taken = 0;
  waits = host >= 0;
  begun = now_ms();
}

void link_close(const char *why) {
  if (host < 0) return;
  if (why != NULL) say("the link to the host is closed: %s", why);
  close(host);
  host = -1;
}

/* ---- what goes out */

static void send_line(const char *line, size_t length) {
  if (host < 0) return;
  ssize_t some = send(host, line, length, MSG_NOSIGNAL | MSG_DONTWAIT);
  if (some < 0 && (errno == EPIPE || errno == ECONNRESET)) link_close(NULL);
  else if (some != (ssize_t)length) link_close("the host does not take its answers");
}

void link_answer(const char *format, ...) {
  char line[LINE_MAX_BYTES];
  va_list words;
  va_start(words, format);
  int length = vsnprintf(line, sizeof line, format, words);
  va_end(words);
  send_line(line, (size_t)length);
}

void tell(const char *format, ...) {
  char words[SAYS_MAX + 1], line[LINE_MAX_BYTES];
  va_list rest;
  va_start(rest, format);
  vsnprintf(words, sizeof words, format, rest);
  va_end(rest);
  make_printable(words);
  say("%s", words);
  int length = snprintf(line, sizeof line, "says %s\n", words);
  send_line(line, (size_t)length);
}

/* ---- what comes in */

/* Drops the bytes that link_next has returned, and reads what has come, as far as there is room. */
void link_read(void) {
  memmove(text, text + taken, held - taken);
  held -= taken;
  taken = 0;
  if (held == sizeof text) return;
  ssize_t some = recv(host, text + held, sizeof text - held, 0);
  if (some < 0 && (errno == EINTR || errno == EAGAIN)) return;
  if (some <= 0) link_close(NULL);
  else held += (size_t)some;
}

/* Milliseconds until a begun message must be whole, or -1. Time in which the driver does not read does not count. */
int link_patience(bool reads) {
  if (!reads) begun = now_ms();
  if (host < 0 || !waits || !reads) return -1;
  long long left = begun + MESSAGE_MS - now_ms();
  if (left <= 0) link_close("its message did not come whole in time");
  return left <= 0 ? 0 : (int)left;
}

static bool is_spool_name(const char *name) {
  size_t length = strlen(name);
  return length >= 1 && length <= SPOOL_MAX &&
         strspn(name, "ABCDEFGHIJKLMNOPQRSTUVWXYZabcdefghijklmnopqrstuvwxyz0123456789._-") == length;
}

static bool is_file_name(const char *name) {
  size_t length = strlen(name);
  for (size_t i = 0; i < length; i++)
    if (name[i] < '!' || name[i] > '~') return false;
  return length >= 1 && length <= FILE_MAX;
}

/* Cuts a line into words at single blanks. Returns how many there are, 5 for more than four. */
static size_t words_of(char *line, char *words[4]) {
  size_t count = 1;
  words[0] = line;
  for (char *c = line; *c != '\0'; c++) {
    if (*c != ' ') continue;
    if (count == 4) return 5;
    *c = '\0';
    words[count++] = c + 1;
  }
  return count;
}

static bool number_in(const char *word, uint32_t most, uint32_t *number) { return read_number(word, strlen(word), 1, most, number); }

/* What a line says, and how many bytes follow it. */
static message message_of(char *line) {
  char *words[4];
  message m = {.kind = WRONG};
  uint32_t bytes = 0;
  size_t count = words_of(line, words);
  if (count == 2 && strcmp(words[0], "spool") == 0 && is_spool_name(words[1])) {
    m.kind = SPOOL;
    strcpy(m.name, words[1]);
  } else if (count == 2 && strcmp(words[0], "restart") == 0 && number_in(words[1], KATCHIDUL_ID_MAX, &m.id)) {
    m.kind = RESTART;
  } else if (count == 4 && strcmp(words[0], "job") == 0 && number_in(words[1], KATCHIDUL_ID_MAX, &m.id) &&
             number_in(words[2], KATCHIDUL_ORDER_MAX, &bytes) && is_file_name(words[3])) {
    m.kind = JOB;
    m.length = bytes;
    strcpy(m.name, words[3]);
  } else if (count == 4 && strcmp(words[0], "page") == 0 && number_in(words[1], KATCHIDUL_ID_MAX, &m.id) &&
             number_in(words[2], KATCHIDUL_PAGES_MAX, &m.page) && number_in(words[3], KATCHIDUL_PAGE_ROWS, &m.rows)) {
    m.kind = PAGE;
    m.length = m.rows * KATCHIDUL_ROW_CELLS;
  }
  return m;
}

/* The message at the front of what came. Its body is valid until link_read. */
static message front(size_t *length) {
  char line[LINE_MAX_BYTES];
  const char *from = text + taken, *end = memchr(from, '\n', held - taken);
  size_t came = held - taken, head = end == NULL ? came : (size_t)(end - from);
  if (head >= LINE_MAX_BYTES || memchr(from, '\0', head) != NULL) return (message){.kind = WRONG};
  if (end == NULL) return (message){.kind = NOTHING_YET};
  memcpy(line, from, head);
  line[head] = '\0';
  message m = message_of(line);
  *length = head + 1 + m.length;
  if (m.kind != WRONG && came < *length) m.kind = NOTHING_YET;
  m.body = (const uint8_t *)from + head + 1;
  return m;
}

/* Whether a message is there that was not taken yet. */
bool link_has_message(void) {
  size_t length;
  return host >= 0 && front(&length).kind != NOTHING_YET;
}

message link_next(void) {
  size_t length;
  message m = front(&length);
  if (held > taken && !waits) waits = true, begun = now_ms();
  if (m.kind == NOTHING_YET || m.kind == WRONG) return m;
  taken += length;
  waits = false;
  return m;
}
