/* The way to a machine. A device stays open from page to page. A network port gets a connection for each page, and the connection's end
   says that the page is whole. The page is drained when the machine has acknowledged every byte, and has closed its side too or has not
   closed it for a while. */
#include "port_channel.h"

#include <errno.h>
#include <fcntl.h>
#include <linux/sockios.h>
#include <netdb.h>
#include <poll.h>
#include <string.h>
#include <sys/ioctl.h>
#include <sys/socket.h>
#include <sys/stat.h>
#include <termios.h>
#include <unistd.h>

#define CONNECT_MS 10000
#define CLOSE_MS 5000 /* that a machine may take to close its side when it has every byte; some never close */

static const char *name;
static bool network;
static char host[256], port[8];
static int file = -1;
static bool connected, shut;
static long long since; /* when the connection was begun, or when the machine had every byte or closed */
static char why[160];

int channel_fd(void) { return file; }

const char *channel_why(void) { return why; }

void channel_close(void) {
  if (file >= 0) close(file);
  file = -1;
  connected = shut = false;
}

static channel_state fail(const char *reason) {
  snprintf(why, sizeof why, "%s", reason);
  channel_close();
  return CHANNEL_FAILED;
}

/* HOST:PORT, an IPv6 address in brackets. */
void channel_name(const char *given) {
  uint32_t number;
  name = given;
  network = strchr(given, '/') == NULL;
  if (!network) return;
  const char *colon = strrchr(given, ':');
  if (colon == NULL || colon == given || !read_number(colon + 1, strlen(colon + 1), 1, 65535, &number))
    stop(given, "this is neither a device's path, as /dev/usb/lp0, nor HOST:PORT");
  size_t length = (size_t)(colon - given);
  if (given[0] == '[' && colon[-1] == ']') given++, length -= 2;
  if (length == 0 || length >= sizeof host) stop(name, "the host's name is empty or too long");
  memcpy(host, given, length);
  host[length] = '\0';
  snprintf(port, sizeof port, "%u", number);
}

/* ---- a device */

/* A terminal line would change CR and LF. Its speed and its flow control stay as stty set them. */
static void make_plain(void) {
  struct termios line;
  if (tcgetattr(file, &line) != 0) return;
  line.c_oflag &= ~(tcflag_t)OPOST;
  line.c_lflag &= ~(tcflag_t)(ECHO | ICANON | ISIG | IEXTEN);
  line.c_cflag &= ~(tcflag_t)HUPCL;
  tcsetattr(file, TCSANOW, &line);
}

static channel_state open_device(void) {
  struct stat is;
  if (file >= 0) return CHANNEL_READY;
  file = open(name, O_WRONLY | O_NONBLOCK | O_NOCTTY | O_CLOEXEC);
  if (file < 0) return fail(strerror(errno));
  if (fstat(file, &is) != 0 || !S_ISCHR(is.st_mode)) return fail("this is no device");
  make_plain();
  return CHANNEL_READY;
}

/* A printer's device is ready to write again when it has passed on what it had. A line also tells how much it has left. */
static channel_state drain_device(void) {
  int left = 0;
  struct pollfd ready = {.fd = file, .events = POLLOUT};
  if (poll(&ready, 1, 0) <= 0) return CHANNEL_WAITS;
  if (ready.revents & (POLLERR | POLLHUP | POLLNVAL)) return fail("the device is gone");
  if (ioctl(file, TIOCOUTQ, &left) == 0 && left > 0) return CHANNEL_WAITS;
  return CHANNEL_READY;
}

/* ---- a network port */

/* A name may have several addresses, each of which is tried in its turn. */
static const struct addrinfo *choose(const struct addrinfo *all) {
  static unsigned tries;
  unsigned count = 0;
  for (const struct addrinfo *a = all; a != NULL; a = a->ai_next) count++;
  const struct addrinfo *chosen = all;
  for (unsigned i = tries++ % count; i > 0; i--) chosen = chosen->ai_next;
  return chosen;
}

static channel_state begin_connection(void) {
  struct addrinfo wanted = {.ai_family = AF_UNSPEC, .ai_socktype = SOCK_STREAM}, *found;
  int number = getaddrinfo(host, port, &wanted, &found);
  if (number != 0) return fail(gai_strerror(number));
  const struct addrinfo *to = choose(found);
  file = socket(to->ai_family, SOCK_STREAM | SOCK_NONBLOCK | SOCK_CLOEXEC, 0);
  bool goes = file >= 0 && (connect(file, to->ai_addr, to->ai_addrlen) == 0 || errno == EINPROGRESS);
  int reason = errno;
  freeaddrinfo(found);
  since = now_ms();
  return goes ? CHANNEL_WAITS : fail(strerror(reason));
}

static channel_state open_network(void) {
  int reason = 0;
  socklen_t length = sizeof reason;
  if (connected) return CHANNEL_READY;
  if (file < 0 && begin_connection() == CHANNEL_FAILED) return CHANNEL_FAILED;
  if (now_ms() - since >= CONNECT_MS) return fail("no connection in time"); /* also if no page waits for it any more */
  struct pollfd ready = {.fd = file, .events = POLLOUT};
  if (poll(&ready, 1, 0) <= 0) return CHANNEL_WAITS;
  if (getsockopt(file, SOL_SOCKET, SO_ERROR, &reason, &length) != 0 || reason != 0) return fail(strerror(reason));
  connected = true;
  return CHANNEL_READY;
}

/* Reads and drops what the machine sends. Returns whether it has closed its side; `failed` is whether the connection failed. */
static bool has_closed(bool *failed) {
  char nothing[256];
  ssize_t some;
  while ((some = recv(file, nothing, sizeof nothing, 0)) > 0) continue;
  *failed = some < 0 && errno != EAGAIN && errno != EINTR;
  return some == 0;
}

static channel_state drain_network(void) {
  int left = 0;
  bool failed;
  if (!shut && shutdown(file, SHUT_WR) != 0) return fail(strerror(errno));
  if (!shut) shut = true, since = 0;
  bool closed = has_closed(&failed);
  if (failed) return fail(strerror(errno));
  if (ioctl(file, SIOCOUTQ, &left) != 0) return fail(strerror(errno));
  if (left > 0 && !closed) return CHANNEL_WAITS;
  if (since == 0) since = now_ms();
  bool waits = now_ms() - since < CLOSE_MS; /* for the last acknowledgement, or for the machine's end of the connection */
  if (waits && (left > 0 || !closed)) return CHANNEL_WAITS;
  if (left > 0) return fail("the machine closed the connection before it had the whole page");
  channel_close();
  return CHANNEL_READY;
}

/* ---- both */

channel_state channel_open(void) { return network ? open_network() : open_device(); }

ssize_t channel_write(const uint8_t *bytes, size_t length) {
  ssize_t some = network ? send(file, bytes, length, MSG_NOSIGNAL) : write(file, bytes, length);
  if (some >= 0) return some;
  if (errno == EAGAIN || errno == EINTR) return 0;
  fail(strerror(errno));
  return -1;
}

channel_state channel_drain(void) { return network ? drain_network() : drain_device(); }
