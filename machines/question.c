/* Questions to the operator: how many pages of a job are finished. A question is a file questions/ID, and its answer is a file
   answers/ID, which the command `answer` writes. A driver that has a terminal asks there too. If an answer is not a number of pages within
   the question's limits, the question is asked again.

   questions/ID has three lines for the command (job, from, to), and then the question in words. */
#include "driver.h"

#include <errno.h>
#include <fcntl.h>
#include <poll.h>
#include <string.h>
#include <termios.h>
#include <unistd.h>

#define QUESTION_BYTES 1024

static uint32_t shown; /* the job whose question is on the terminal */

/* Reading from a terminal in the background would stop the driver. */
int question_fd(void) { return shown != 0 && isatty(STDIN_FILENO) && tcgetpgrp(STDIN_FILENO) == getpgrp() ? STDIN_FILENO : -1; }

static void file_name(const char *folder, uint32_t id, char name[32]) { snprintf(name, 32, "%s/%u", folder, id); }

/* Opens a question, once. An answer that is there already belongs to it only if the question has not changed. */
void question_ask(int state, const char *folder, const question *q) {
  char file[32], id[16], text[QUESTION_BYTES], old[QUESTION_BYTES];
  int length = snprintf(text, sizeof text,
                        "job %u\nfrom %u\nto %u\n%s\n"
                        "How many pages of this job are finished, counted from page 1? A number from %u to %u. To answer:\n"
                        "%s answer %s %u PAGES\n",
                        q->id, q->least, q->most, q->about, q->least, q->most, program, folder, q->id);
  if (length < 0 || length >= (int)sizeof text) stop(folder, "the folder's name is too long for a question");
  file_name("questions", q->id, file);
  snprintf(id, sizeof id, "%u", q->id);
  read_small(state, file, old, sizeof old);
  if (strcmp(old, text) != 0) {
    remove_lasting(state, "answers", id);
    write_lasting(state, "questions", id, text, (size_t)length);
  }
  if (shown == q->id) return;
  shown = q->id;
  tcflush(STDIN_FILENO, TCIFLUSH); /* what was typed before the question is no answer to it */
  say("%s", q->about);
  tell("job %u waits for the operator: how many of its pages are finished, %u to %u? %s answer %s %u PAGES", q->id, q->least, q->most,
       program, folder, q->id);
}

static bool fits(const char *text, const question *q, uint32_t *pages) {
  if (read_number(text, strlen(text), q->least, q->most, pages)) return true;
  say("'%s' is no answer for job %u: it must be a number from %u to %u", text, q->id, q->least, q->most);
  return false;
}

/* Reads a line from the terminal without waiting. A terminal gives whole lines. */
static bool read_terminal(const question *q, uint32_t *pages) {
  char line[64];
  struct pollfd ready = {.fd = question_fd(), .events = POLLIN};
  if (ready.fd < 0 || poll(&ready, 1, 0) <= 0) return false;
  ssize_t length = read(STDIN_FILENO, line, sizeof line - 1);
  if (length < 0) return false;
  if (length == 0) {
    say("the terminal is closed: answer by '%s answer'", program);
    close(STDIN_FILENO);
    open("/dev/null", O_RDONLY);
    return false;
  }
  if (line[length - 1] == '\n') length--;
  line[length] = '\0';
  return fits(line, q, pages);
}

static bool read_answer(int state, const question *q, uint32_t *pages) {
  char file[32], id[16], text[64];
  file_name("answers", q->id, file);
  snprintf(id, sizeof id, "%u", q->id);
  size_t length = read_small(state, file, text, sizeof text);
  if (length == 0) return false;
  if (text[length - 1] == '\n') text[length - 1] = '\0';
  if (fits(text, q, pages)) return true;
  remove_lasting(state, "answers", id);
  return false;
}

bool question_answered(int state, const question *q, uint32_t *pages) {
  if (!read_terminal(q, pages) && !read_answer(state, q, pages)) return false;
  tell("job %u: pages that are finished, by the operator's answer: %u", q->id, *pages);
  return true;
}

/* The question is removed first: an answer without a question means nothing. */
void question_close(int state, uint32_t id) {
  char name[16];
  snprintf(name, sizeof name, "%u", id);
  remove_lasting(state, "questions", name);
  remove_lasting(state, "answers", name);
  if (shown == id) shown = 0;
}

/* ---- the command `answer` */

/* The number after `word` at the front of `at`, which then moves to the next line. */
static bool take_number(const char **at, const char *word, uint32_t *number) {
  size_t length = strlen(word);
  const char *end = strchr(*at, '\n');
  if (end == NULL || strncmp(*at, word, length) != 0) return false;
  const char *digits = *at + length;
  *at = end + 1;
  return read_number(digits, (size_t)(end - digits), 0, NUMBER_MAX, number);
}

/* answer STATE JOB PAGES */
int answer_command(int count, char **words) {
  char file[32], id[16], text[QUESTION_BYTES];
  const char *at = text;
  question q = {0};
  uint32_t asked, pages;
  if (count != 3 || !read_number(words[1], strlen(words[1]), 1, KATCHIDUL_ID_MAX, &q.id)) {
    fprintf(stderr, "usage: %s answer STATE JOB PAGES\n", program);
    return ENDED_BY_USAGE;
  }
  int state = open_state(words[0], false);
  file_name("questions", q.id, file);
  if (read_small(state, file, text, sizeof text) == 0) {
    fprintf(stderr, "%s: there is no question about job %u; nothing is changed\n", program, q.id);
    return ENDED_BY_FAILURE;
  }
  if (!take_number(&at, "job ", &asked) || !take_number(&at, "from ", &q.least) || !take_number(&at, "to ", &q.most))
    stop(file, "this is no question");
  if (!read_number(words[2], strlen(words[2]), q.least, q.most, &pages)) {
    fprintf(stderr, "%s: '%s' is no answer; nothing is changed. The question:\n%s", program, words[2], at);
    return ENDED_BY_USAGE;
  }
  int length = snprintf(text, sizeof text, "%u\n", pages);
  snprintf(id, sizeof id, "%u", q.id);
  write_lasting(state, "answers", id, text, (size_t)length);
  printf("job %u: finished pages: %u; the driver goes on behind them\n", q.id, pages);
  return ENDED_WELL;
}
