/* Requests to CUPS by libcups. The server is libcups' own choice: CUPS_SERVER, client.conf, or the machine's socket. */
#include "cups_calls.h"

#include <cups/cups.h>
#include <errno.h>
#include <string.h>
#include <sys/socket.h>

#define CONNECT_MS 5000
#define REPLY_SECONDS 10.0

static const options *given;
static http_t *server, *watched;
static char why[WORDS_BYTES];

const char *cups_why(void) { return why; }

static const char *no_password(const char *prompt, http_t *http, const char *method, const char *resource, void *own) {
  (void)prompt, (void)http, (void)method, (void)resource, (void)own;
  return NULL; /* no password is asked for at a terminal */
}

void cups_open(const options *o) {
  given = o;
  cupsSetUser(o->user);
  cupsSetPasswordCB2(no_password, NULL);
}

/* ---- requests */

static int give_up(http_t *http, void *own) {
  (void)http, (void)own;
  return 0;
}

static void disconnect(void) {
  if (server != NULL) httpClose(server);
  server = NULL;
}

static http_t *connect_to_server(void) {
  return httpConnect2(cupsServer(), ippPort(), NULL, AF_UNSPEC, cupsEncryption(), 1, CONNECT_MS, NULL);
}

/* An idle connection ends when CUPS ends, even if another CUPS starts at once. */
void cups_watch(void) {
  cups_unwatch();
  watched = connect_to_server();
}

void cups_unwatch(void) {
  if (watched != NULL) httpClose(watched);
  watched = NULL;
}

bool cups_was_there(void) {
  char none;
  return watched != NULL && recv(httpGetFd(watched), &none, 1, MSG_PEEK | MSG_DONTWAIT) < 0 && (errno == EAGAIN || errno == EINTR);
}

/* Each request has a connection of its own: an old one may have ended with its CUPS, and then libcups would send the request twice. */
static bool connect_anew(void) {
  disconnect();
  server = connect_to_server();
  if (server == NULL) {
    snprintf(why, sizeof why, "CUPS does not answer at %s", cupsServer());
    return false;
  }
  httpSetTimeout(server, REPLY_SECONDS, give_up, NULL);
  return true;
}

static ipp_t *request_for(ipp_op_t what, const char *kind, const char *path) {
  ipp_t *request = ippNewRequest(what);
  char uri[HTTP_MAX_URI];
  httpAssembleURIf(HTTP_URI_CODING_ALL, uri, sizeof uri, "ipp", NULL, "localhost", 0, "%s", path);
  ippAddString(request, IPP_TAG_OPERATION, IPP_TAG_URI, kind, NULL, uri);
  ippAddString(request, IPP_TAG_OPERATION, IPP_TAG_NAME, "requesting-user-name", NULL, given->user);
  return request;
}

static ipp_t *request_for_queue(ipp_op_t what) {
  char path[256];
  snprintf(path, sizeof path, "/printers/%s", given->machine);
  return request_for(what, "printer-uri", path);
}

static ipp_t *request_for_job(ipp_op_t what, uint32_t number) {
  char path[64];
  snprintf(path, sizeof path, "/jobs/%u", number);
  return request_for(what, "job-uri", path);
}

/* What an answer says. If the server is busy or failed, it may accept later; any other refusal is final. */
static cups_reply reply_of(ipp_t *answer) {
  ipp_status_t status = answer == NULL ? cupsLastError() : ippGetStatusCode(answer);
  bool failed = status >= IPP_STATUS_ERROR_BAD_REQUEST;
  if (answer != NULL && !failed) return CUPS_ANSWERED;
  snprintf(why, sizeof why, "%s", failed ? cupsLastErrorString() : "CUPS broke off");
  return answer == NULL || status >= IPP_STATUS_ERROR_INTERNAL ? CUPS_AWAY : CUPS_REFUSED;
}

/* Sends a request, with a document or without one, and deletes the request. The caller deletes the answer. */
static ipp_t *ask(ipp_t *request, const char *path, const uint8_t *bytes, size_t length) {
  ipp_t *answer = NULL;
  if (connect_anew()) {
    http_status_t status = cupsSendRequest(server, request, path, ippLength(request) + length);
    if (status == HTTP_STATUS_CONTINUE && length > 0) status = cupsWriteRequestData(server, (const char *)bytes, length);
    if (status == HTTP_STATUS_CONTINUE || status == HTTP_STATUS_OK) answer = cupsGetResponse(server, path);
  }
  ippDelete(request);
  return answer;
}

static cups_reply ask_shortly(ipp_t *request, const char *path, ipp_t **answer) {
  *answer = ask(request, path, NULL, 0);
  if (server == NULL) return CUPS_AWAY;
  return reply_of(*answer);
}

/* ---- jobs */

static void copy_text(ipp_t *answer, const char *name, char *text, size_t size) {
  const char *value = ippGetString(ippFindAttribute(answer, name, IPP_TAG_ZERO), 0, NULL);
  snprintf(text, size, "%s", value == NULL ? "" : value);
}

/* CUPS lists no more than 500 jobs if the last of these is asked for. */
static const char *const job_parts[] = {"job-id", "job-name", "job-state", "job-state-reasons", "time-at-processing"};

static void want(ipp_t *request, int count, const char *const *parts) {
  ippAddStrings(request, IPP_TAG_OPERATION, IPP_TAG_KEYWORD, "requested-attributes", count, NULL, parts);
}

/* Notes one attribute of a job. */
static void note(ipp_attribute_t *a, cups_job *job) {
  const char *name = ippGetName(a);
  if (strcmp(name, "job-id") == 0) job->number = (uint32_t)ippGetInteger(a, 0);
  if (strcmp(name, "job-state") == 0) job->state = ippGetInteger(a, 0);
  if (strcmp(name, "time-at-processing") == 0) job->begun = ippGetValueTag(a) == IPP_TAG_INTEGER;
  if (strcmp(name, "job-name") == 0) snprintf(job->title, sizeof job->title, "%s", ippGetString(a, 0, NULL));
  if (strcmp(name, "job-state-reasons") == 0) snprintf(job->reason, sizeof job->reason, "%s", ippGetString(a, 0, NULL));
}

/* The jobs follow one another, with a nameless attribute between them. */
static void see_all(ipp_t *answer, void (*see)(const cups_job *, void *), void *own) {
  cups_job job = {0};
  for (ipp_attribute_t *a = ippFirstAttribute(answer); a != NULL; a = ippNextAttribute(answer)) {
    if (ippGetName(a) != NULL && ippGetGroupTag(a) == IPP_TAG_JOB) {
      note(a, &job);
      continue;
    }
    if (job.number != 0) see(&job, own);
    memset(&job, 0, sizeof job);
  }
  if (job.number != 0) see(&job, own);
}

static void keep(const cups_job *job, void *own) { *(cups_job *)own = *job; }

cups_reply cups_look(uint32_t number, cups_job *job) {
  ipp_t *request = request_for_job(IPP_OP_GET_JOB_ATTRIBUTES, number), *answer;
  want(request, 5, job_parts);
  memset(job, 0, sizeof *job);
  cups_reply reply = ask_shortly(request, "/", &answer);
  if (reply == CUPS_ANSWERED) see_all(answer, keep, job);
  ippDelete(answer);
  return reply;
}

typedef struct {
  void (*see)(const cups_job *job, void *own);
  void *own;
  cups_reply reply;
} listing;

/* CUPS lists a job without its name when it has put the job's attributes away, and brings them back when it is asked for that job. */
static void see_named(const cups_job *job, void *own) {
  listing *l = own;
  cups_job whole = *job;
  if (l->reply != CUPS_ANSWERED) return;
  cups_reply reply = job->title[0] == '\0' ? cups_look(job->number, &whole) : CUPS_ANSWERED;
  if (reply == CUPS_ANSWERED) l->see(&whole, l->own);
  if (reply == CUPS_AWAY) l->reply = CUPS_AWAY;
}

static cups_reply list_which(const char *which, int parts, void (*see)(const cups_job *job, void *own), void *own) {
  ipp_t *request = request_for(IPP_OP_GET_JOBS, "printer-uri", "/"), *answer;
  ippAddBoolean(request, IPP_TAG_OPERATION, "my-jobs", 1);
  ippAddString(request, IPP_TAG_OPERATION, IPP_TAG_KEYWORD, "which-jobs", NULL, which);
  want(request, parts, job_parts);
  cups_reply reply = ask_shortly(request, "/", &answer);
  if (reply == CUPS_ANSWERED) see_all(answer, see, own);
  ippDelete(answer);
  return reply;
}

cups_reply cups_list(void (*see)(const cups_job *job, void *own), void *own) {
  listing l = {see, own, CUPS_ANSWERED};
  cups_reply reply = list_which("all", 4, see_named, &l);
  return reply == CUPS_ANSWERED ? l.reply : reply;
}

typedef struct {
  uint32_t number;
  bool found;
} search;

static void look_for(const cups_job *job, void *own) {
  search *s = own;
  if (job->number == s->number) s->found = true;
}

cups_reply cups_is_ghost(uint32_t number, bool *ghost) {
  search s = {.number = number};
  cups_job job;
  cups_reply reply = list_which("not-completed", 1, look_for, &s);
  *ghost = false;
  if (reply != CUPS_ANSWERED) return reply;
  reply = cups_look(number, &job); /* after the list: the job may be over by now */
  *ghost = reply == CUPS_ANSWERED && job.state < IPP_JSTATE_CANCELED && (!s.found || cups_waits_for_document(&job));
  return reply;
}

/* After its own restart CUPS has forgotten the reason. With any other reason, someone or something holds the job. */
bool cups_waits_for_document(const cups_job *job) {
  return job->state == IPP_JSTATE_HELD && (strcmp(job->reason, "job-incoming") == 0 || strcmp(job->reason, "none") == 0);
}

cups_reply cups_look_at_queue(cups_queue *queue) {
  static const char *const parts[] = {"printer-state", "printer-state-message", "printer-is-accepting-jobs", "printer-error-policy"};
  ipp_t *request = request_for_queue(IPP_OP_GET_PRINTER_ATTRIBUTES), *answer;
  want(request, 4, parts);
  memset(queue, 0, sizeof *queue);
  cups_reply reply = ask_shortly(request, "/", &answer);
  if (reply == CUPS_ANSWERED) {
    int state = ippGetInteger(ippFindAttribute(answer, "printer-state", IPP_TAG_ENUM), 0);
    queue->stopped = state == IPP_PSTATE_STOPPED;
    queue->processes = state == IPP_PSTATE_PROCESSING;
    queue->accepts = ippGetBoolean(ippFindAttribute(answer, "printer-is-accepting-jobs", IPP_TAG_BOOLEAN), 0);
    copy_text(answer, "printer-state-message", queue->words, sizeof queue->words);
    copy_text(answer, "printer-error-policy", queue->policy, sizeof queue->policy);
  }
  ippDelete(answer);
  return reply;
}

/* ---- a page */

/* No banner sheets, even if the queue asks for them: a page is only what the host sent. */
cups_reply cups_create(const char *title, uint32_t *number) {
  static const char *const none[] = {"none", "none"};
  char path[256];
  ipp_t *request = request_for_queue(IPP_OP_CREATE_JOB), *answer;
  ippAddString(request, IPP_TAG_OPERATION, IPP_TAG_NAME, "job-name", NULL, title);
  ippAddStrings(request, IPP_TAG_JOB, IPP_TAG_NAME, "job-sheets", 2, NULL, none);
  snprintf(path, sizeof path, "/printers/%s", given->machine);
  cups_reply reply = ask_shortly(request, path, &answer);
  *number = reply == CUPS_ANSWERED ? (uint32_t)ippGetInteger(ippFindAttribute(answer, "job-id", IPP_TAG_INTEGER), 0) : 0;
  ippDelete(answer);
  if (reply == CUPS_ANSWERED && *number == 0) {
    snprintf(why, sizeof why, "CUPS gave the job no number");
    return CUPS_REFUSED;
  }
  return reply;
}

cups_reply cups_send(uint32_t number, const uint8_t *bytes, size_t length) {
  ipp_t *request = request_for_job(IPP_OP_SEND_DOCUMENT, number), *answer;
  ippAddString(request, IPP_TAG_OPERATION, IPP_TAG_MIMETYPE, "document-format", NULL, given->format);
  ippAddBoolean(request, IPP_TAG_OPERATION, "last-document", 1);
  answer = ask(request, "/jobs", bytes, length);
  cups_reply reply = server == NULL ? CUPS_AWAY : reply_of(answer);
  ippDelete(answer);
  return reply;
}

cups_reply cups_cancel(uint32_t number) {
  ipp_t *answer;
  cups_reply reply = ask_shortly(request_for_job(IPP_OP_CANCEL_JOB, number), "/jobs", &answer);
  ippDelete(answer);
  return reply;
}
