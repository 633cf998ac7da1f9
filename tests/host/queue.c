/* The print queue: request 10's words one by one, every history of a few calls, and random calls, also on queues that no calls give. Every
   byte of each result is compared with a second queue that is written here from those words. */
#include <stdio.h>
#include <string.h>

#include "host.h"

static const katchidul_queue empty;

/* ---- what request 10 says */

static bool is_waiting(const katchidul_queue *queue, uint32_t jobs, uint32_t id) {
  for (uint32_t i = 0; i < jobs; i++)
    if (queue->ids[i] == id) return true;
  return false;
}

/* At most the first 16 jobs count. */
static uint32_t counted(const katchidul_queue *queue) {
  return queue->jobs > KATCHIDUL_JOBS_MAX ? KATCHIDUL_JOBS_MAX : queue->jobs;
}

/* The jobs from `first` on, at the front of a queue of zeros. */
static katchidul_queue line_from(const katchidul_queue *queue, uint32_t first) {
  katchidul_queue line = {.jobs = counted(queue) - first};
  memcpy(line.ids, queue->ids + first, line.jobs * sizeof *line.ids);
  memcpy(line.pages, queue->pages + first, line.jobs * sizeof *line.pages);
  return line;
}

static void put_last(katchidul_queue *queue, uint32_t id, uint32_t pages) {
  queue->ids[queue->jobs] = id, queue->pages[queue->jobs] = pages;
  queue->jobs++;
}

static katchidul_joined owed_join(katchidul_queue queue, uint32_t id, uint32_t pages) {
  uint32_t jobs = counted(&queue);
  if (id == 0 || id > 65535 || pages == 0 || pages > 16 || is_waiting(&queue, jobs, id)) return (katchidul_joined){17, id, queue};
  if (jobs == 16) return (katchidul_joined){16, id, queue};
  katchidul_joined owed = {.queue = line_from(&queue, 0)};
  put_last(&owed.queue, id, pages);
  return owed;
}

static katchidul_turned owed_turn(katchidul_queue queue) {
  if (queue.jobs == 0) return (katchidul_turned){.queue = queue};
  katchidul_turned owed = {queue.ids[0], queue.pages[0] == 0 ? 0 : queue.pages[0] - 1, line_from(&queue, 1)};
  if (owed.pages > 0) put_last(&owed.queue, owed.id, owed.pages);
  return owed;
}

/* A call, compared with what is owed. A struct has only numbers, so all its bytes are compared. */
static bool right;

static katchidul_joined join(katchidul_queue queue, uint32_t id, uint32_t pages) {
  katchidul_joined got = katchidul_join(queue, id, pages), owed = owed_join(queue, id, pages);
  right = right && memcmp(&got, &owed, sizeof got) == 0;
  return got;
}

static katchidul_turned turn(katchidul_queue queue) {
  katchidul_turned got = katchidul_turn(queue), owed = owed_turn(queue);
  right = right && memcmp(&got, &owed, sizeof got) == 0;
  return got;
}

/* ---- examples */

static bool joins(katchidul_queue *queue, uint32_t id, uint32_t pages, uint32_t number) {
  katchidul_joined got = join(*queue, id, pages);
  *queue = got.queue;
  return got.number == number && got.place == (number == 0 ? 0 : id);
}

static bool sends(katchidul_queue *queue, uint32_t id, uint32_t pages) {
  katchidul_turned got = turn(*queue);
  *queue = got.queue;
  return got.id == id && got.pages == pages;
}

static void check_a_day(void) {
  katchidul_queue queue = empty;
  check(sends(&queue, 0, 0), "an empty queue sends nothing");
  check(joins(&queue, 7, 2, 0) && joins(&queue, 9, 1, 0) && sends(&queue, 7, 1), "the first of two jobs sends first");
  check(joins(&queue, 5, 1, 0) && sends(&queue, 9, 0) && sends(&queue, 7, 0), "a job that went to the back sends before one that joined then");
  check(sends(&queue, 5, 0) && sends(&queue, 0, 0) && queue.jobs == 0, "jobs leave with their last page");
  check(joins(&queue, 7, 1, 0), "an id is free again when its job has left");
}

static void check_refused_jobs(void) {
  katchidul_queue queue = empty;
  check(joins(&queue, 7, 2, 0) && joins(&queue, 7, 3, KATCHIDUL_JOB_UNFIT), "an id still waiting");
  check(joins(&queue, 0, 1, 17) && joins(&queue, 65536, 1, 17) && joins(&queue, UINT32_MAX, 1, 17), "ids beyond 1 to 65,535");
  check(joins(&queue, 3, 0, 17) && joins(&queue, 3, 17, 17) && joins(&queue, 3, UINT32_MAX, 17), "pages beyond 1 to 16");
  check(joins(&queue, 65535, 16, 0) && joins(&queue, 1, 1, 0), "ends of both ranges");
  check(queue.jobs == 3 && queue.ids[1] == 65535 && queue.pages[1] == 16 && queue.ids[3] == 0, "refused jobs leave the queue as it was");
}

static void check_full(void) {
  katchidul_queue queue = empty;
  for (uint32_t id = 1; id <= 16; id++) check(joins(&queue, id, 1, 0), "sixteen jobs join");
  check(joins(&queue, 17, 1, KATCHIDUL_QUEUE_FULL), "a seventeenth does not");
  check(joins(&queue, 16, 1, 17) && joins(&queue, 0, 1, 17) && joins(&queue, 17, 17, 17), "17 is tried before 16");
  check(sends(&queue, 1, 0) && joins(&queue, 17, 1, 0) && joins(&queue, 1, 1, 16), "one leaves and one joins");
}

/* ---- every history of a few calls: each a turn, or a join of one of three ids with one or two pages */

#define IDS 3
#define PAGES 2

/* The state of the history. `due` is, by id, the number of the turn at which a waiting job's next page must be sent. */
typedef struct {
  katchidul_queue queue;
  uint32_t turns, admitted, sent, due[IDS + 1], left[IDS + 1];
} history;

static unsigned long histories;

static bool promises_hold(const history *h) {
  uint32_t left = 0;
  bool hold = h->queue.jobs <= KATCHIDUL_JOBS_MAX;
  for (uint32_t i = 0; i < h->queue.jobs; i++) {
    uint32_t id = h->queue.ids[i], pages = h->queue.pages[i];
    hold = hold && id >= 1 && id <= IDS && pages >= 1 && !is_waiting(&h->queue, i, id) && pages == h->left[id] && h->due[id] == h->turns + i + 1;
    left += pages;
  }
  return hold && h->sent + left == h->admitted;
}

static void walk(history before, int calls);

static void walk_turn(history h, int calls) {
  katchidul_turned got = turn(h.queue);
  h.queue = got.queue;
  h.turns++;
  if (got.id != 0) {
    right = right && got.id <= IDS && h.due[got.id] == h.turns && h.left[got.id] == got.pages + 1;
    h.sent++, h.left[got.id]--;
    h.due[got.id] = h.turns + got.queue.jobs;
  }
  walk(h, calls);
}

static void walk_join(history h, uint32_t id, uint32_t pages, int calls) {
  katchidul_joined got = join(h.queue, id, pages);
  h.queue = got.queue;
  if (got.number == 0) {
    h.admitted += pages, h.left[id] = pages;
    h.due[id] = h.turns + got.queue.jobs;
  }
  walk(h, calls);
}

static void walk(history h, int calls) {
  histories++;
  right = right && promises_hold(&h);
  if (calls == 0 || !right) return;
  walk_turn(h, calls - 1);
  for (uint32_t id = 1; id <= IDS; id++)
    for (uint32_t pages = 1; pages <= PAGES; pages++) walk_join(h, id, pages, calls - 1);
}

static void check_histories(int calls) {
  right = true, histories = 0;
  walk((history){0}, calls);
  check(right, "every history of a few calls keeps the promises");
  printf("host: %lu histories of up to %d calls on the print queue\n", histories, calls);
}

/* ---- random calls */

static uint64_t state = 0x9e3779b97f4a7c15u;

static uint32_t below(uint32_t end) {
  state ^= state << 13;
  state ^= state >> 7;
  state ^= state << 17;
  return (uint32_t)(state >> 32) % end;
}

/* Small numbers and the ends of ranges, so that ids meet and queues fill; now and then any number. */
static uint32_t some_number(void) {
  static const uint32_t ends[] = {0, 1, 15, 16, 17, 65535, 65536, UINT32_MAX};
  switch (below(8)) {
    case 0: return ends[below(sizeof ends / sizeof *ends)];
    case 1: return (uint32_t)state;
    default: return below(24);
  }
}

static katchidul_queue any_queue(void) {
  katchidul_queue queue = {.jobs = some_number()};
  for (uint32_t i = 0; i < KATCHIDUL_JOBS_MAX; i++) queue.ids[i] = some_number(), queue.pages[i] = some_number();
  return queue;
}

static void check_random(uint32_t calls) {
  katchidul_queue queue = empty;
  right = true;
  for (uint32_t i = 0; i < calls; i++) queue = below(3) ? join(queue, some_number(), some_number()).queue : turn(queue).queue;
  check(right, "random calls, one after the other");
  for (uint32_t i = 0; i < calls; i++) {
    queue = any_queue();
    join(queue, below(4) ? some_number() : queue.ids[below(KATCHIDUL_JOBS_MAX)], some_number());
    turn(queue);
  }
  check(right, "random calls on queues that no calls give");
}

void check_queue(uint32_t calls) {
  right = true;
  check_a_day();
  check_refused_jobs();
  check_full();
  check(right, "every byte of the examples");
  check_histories(calls >= 200000 ? 8 : 6);
  check_random(calls);
}
