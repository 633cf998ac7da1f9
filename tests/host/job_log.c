/* The job log: request 6's words one by one; random jobs in lent buffers of every size from 0 to 60 bytes, with a crash after every byte
   that an append makes lasting and a restart after every step; and calls on damaged logs. Each result, and each byte of both buffers and
   around them, is compared with a second log that is written here from those words. */
#include <stdio.h>
#include <string.h>

#include "host.h"

#define SIZE_MOST 60
#define AROUND 8 /* bytes on either side of a lent buffer */
#define UNTOUCHED 0xEE
#define RECORD KATCHIDUL_RECORD_BYTES

typedef struct {
  size_t size;
  uint8_t room[AROUND + SIZE_MOST + AROUND];
} lent;

/* What a call owes: its answer, and both buffers after it. */
typedef struct {
  katchidul_log answer;
  lent log, second;
} outcome;

static bool right;

static uint8_t *bytes(lent *buffer) { return buffer->room + AROUND; }

static lent empty_buffer(size_t size) {
  lent buffer = {.size = size};
  memset(buffer.room, UNTOUCHED, sizeof buffer.room);
  return buffer;
}

/* ---- what request 6 says */

typedef struct {
  bool right;
  uint32_t page; /* of the first record out of turn */
  uint32_t finished, sent;
} says;

static bool is_in_turn(uint32_t tag, uint32_t page, bool first, const says *log) {
  switch (tag) {
    case 1: return page == log->sent + 1;
    case 2: return page == log->finished + 1 && page <= log->sent;
    case 3: return first;
    default: return false;
  }
}

static void count_record(says *log, uint32_t tag, uint32_t page) {
  if (tag != 2) log->sent = page;
  if (tag != 1) log->finished = page;
}

static says read_records(const uint8_t *log, size_t used) {
  says read = {.right = true};
  for (size_t at = 0; at + RECORD <= used; at += RECORD) {
    const uint8_t *record = log + at;
    uint32_t length = record[1] * 256u + record[2], page = record[3] * 256u + record[4];
    if (length != 2 || !is_in_turn(record[0], page, at == 0, &read)) return (says){.page = page};
    count_record(&read, record[0], page);
  }
  return read;
}

static size_t put_record(uint8_t *log, size_t at, uint32_t tag, uint32_t page) {
  const uint8_t record[RECORD] = {(uint8_t)tag, 0, 2, (uint8_t)(page >> 8), (uint8_t)page};
  memcpy(log + at, record, RECORD);
  return at + RECORD;
}

static katchidul_log answered(uint32_t moved, const says *log, size_t used) {
  return (katchidul_log){.moved = moved, .finished = log->finished, .sent = log->sent, .used = used};
}

static katchidul_log refused(uint32_t number, uint32_t place) { return (katchidul_log){.number = number, .place = place}; }

/* One finished record, the open pages, and the new record if there is one (tag 0: none). */
static katchidul_log compact(const says *log, uint32_t tag, uint32_t page, uint32_t place, lent *second) {
  size_t length = RECORD * (1u + log->sent - log->finished + (tag != 0)), at = 0;
  says after = *log;
  if (length > second->size) return refused(KATCHIDUL_LOG_SECOND_SHORT, place);
  at = put_record(bytes(second), at, 3, log->finished);
  for (uint32_t open = log->finished + 1; open <= log->sent; open++) at = put_record(bytes(second), at, 1, open);
  if (tag != 0) {
    put_record(bytes(second), at, tag, page);
    count_record(&after, tag, page);
  }
  return answered(1, &after, length);
}

static katchidul_log owed_reading(lent log, size_t used) {
  if (used > log.size) return refused(KATCHIDUL_BUFFER_SHORT, 0);
  says read = read_records(bytes(&log), used);
  return read.right ? answered(0, &read, used - used % RECORD) : refused(KATCHIDUL_LOG_OUT_OF_TURN, read.page);
}

static outcome owed_append(lent log, size_t used, uint32_t tag, uint32_t page, lent second) {
  outcome owed = {.answer = owed_reading(log, used), .log = log, .second = second};
  if (owed.answer.number != 0) return owed;
  says read = {true, 0, owed.answer.finished, owed.answer.sent};
  size_t at = owed.answer.used;
  if (page > 65535 || !is_in_turn(tag, page, false, &read)) {
    owed.answer = refused(KATCHIDUL_LOG_OUT_OF_TURN, page);
  } else if (log.size - at < RECORD) {
    owed.answer = compact(&read, tag, page, page, &owed.second);
  } else {
    count_record(&read, tag, page);
    owed.answer = answered(0, &read, put_record(bytes(&owed.log), at, tag, page));
  }
  return owed;
}

static outcome owed_restart(lent log, size_t used, uint32_t count, lent second) {
  outcome owed = {.answer = owed_reading(log, used), .log = log, .second = second};
  if (owed.answer.number != 0) return owed;
  says after = {true, 0, count, owed.answer.sent};
  bool fits = owed.answer.finished <= count && count <= owed.answer.sent;
  owed.answer = fits ? compact(&after, 0, 0, count, &owed.second) : refused(KATCHIDUL_LOG_COUNT_OUTSIDE, count);
  return owed;
}

/* ---- each call, compared with what is owed */

static bool same(katchidul_log a, katchidul_log b) {
  return a.number == b.number && a.place == b.place && a.moved == b.moved && a.finished == b.finished && a.sent == b.sent && a.used == b.used;
}

static void hold(const outcome *owed, katchidul_log got, const lent *log, const lent *second) {
  right = right && same(got, owed->answer) && memcmp(log, &owed->log, sizeof *log) == 0 && memcmp(second, &owed->second, sizeof *second) == 0;
}

static katchidul_log read_log(lent *log, size_t used) {
  lent before = *log;
  katchidul_log got = katchidul_read_log(bytes(log), log->size, used);
  right = right && same(got, owed_reading(before, used)) && memcmp(log, &before, sizeof before) == 0;
  return got;
}

static katchidul_log append(lent *log, size_t used, uint32_t tag, uint32_t page, lent *second) {
  outcome owed = owed_append(*log, used, tag, page, *second);
  katchidul_log got = katchidul_append(bytes(log), log->size, used, tag, page, bytes(second), second->size);
  hold(&owed, got, log, second);
  return got;
}

static katchidul_log restart(lent *log, size_t used, uint32_t count, lent *second) {
  outcome owed = owed_restart(*log, used, count, *second);
  katchidul_log got = katchidul_restart(bytes(log), log->size, used, count, bytes(second), second->size);
  hold(&owed, got, log, second);
  return got;
}

/* ---- examples. A log is written as its records, `1 7` for page 7 sent; the bytes after it are left as they were. */

typedef struct {
  uint32_t records[4][2]; /* tag and page; tag 0 ends them */
  size_t size;
  char call;              /* r: read; a: append; s: restart */
  uint32_t tag, page;     /* of an append; the count of a restart as page */
  size_t second;
  katchidul_log answer;
} example;

static const example examples[] = {
    {{{0}}, 0, 'r', 0, 0, 0, {.used = 0}},
    {{{1, 1}, {1, 2}, {2, 1}}, 15, 'r', 0, 0, 0, {.finished = 1, .sent = 2, .used = 15}},
    {{{3, 7}, {1, 8}}, 60, 'r', 0, 0, 0, {.finished = 7, .sent = 8, .used = 10}},
    {{{3, 0}}, 5, 'r', 0, 0, 0, {.used = 5}},
    {{{1, 1}, {3, 1}}, 10, 'r', 0, 0, 0, {.number = 13, .place = 1}},
    {{{1, 0}}, 5, 'r', 0, 0, 0, {.number = 13, .place = 0}},
    {{{9, 300}}, 5, 'r', 0, 0, 0, {.number = 13, .place = 300}},
    {{{1, 1}, {1, 2}, {2, 2}}, 15, 'r', 0, 0, 0, {.number = 13, .place = 2}},
    {{{2, 1}}, 5, 'r', 0, 0, 0, {.number = 13, .place = 1}},
    {{{0}}, 5, 'a', 1, 1, 0, {.sent = 1, .used = 5}},
    {{{1, 2}}, 60, 'a', 1, 9, 0, {.number = 13, .place = 2}},                      /* the log's own records first */
    {{{0}}, 60, 'a', 3, 0, 60, {.number = 13, .place = 0}},                        /* an append takes tag 1 or 2 */
    {{{0}}, 60, 'a', 257, 1, 60, {.number = 13, .place = 1}},                      /* 257 is not 1 */
    {{{3, 65535}}, 60, 'a', 1, 65536, 0, {.number = 13, .place = 65536}},
    {{{3, 65534}}, 60, 'a', 1, 65535, 0, {.finished = 65534, .sent = 65535, .used = 10}},
    {{{1, 1}, {1, 2}}, 10, 'a', 2, 1, 15, {.number = 12, .place = 1}},             /* 3 0, 1 1, 1 2, 2 1: twenty bytes */
    {{{1, 1}, {1, 2}}, 14, 'a', 2, 1, 20, {.moved = 1, .finished = 1, .sent = 2, .used = 20}},
    {{{0}}, 4, 'a', 1, 1, 10, {.moved = 1, .sent = 1, .used = 10}},                /* four bytes are full when empty */
    {{{0}}, 0, 'a', 1, 2, 0, {.number = 13, .place = 2}},                          /* 13 before 12 */
    {{{0}}, 0, 's', 0, 0, 5, {.moved = 1, .used = 5}},                             /* a restart always compacts */
    {{{0}}, 0, 's', 0, 0, 4, {.number = 12, .place = 0}},
    {{{1, 1}, {1, 2}}, 10, 's', 0, 1, 10, {.moved = 1, .finished = 1, .sent = 2, .used = 10}},
    {{{1, 1}}, 5, 's', 0, 2, 0, {.number = 14, .place = 2}},                       /* 14 before 12 */
    {{{3, 2}}, 5, 's', 0, 1, 60, {.number = 14, .place = 1}},
    {{{2, 1}}, 5, 's', 0, 9, 0, {.number = 13, .place = 1}},                       /* 13 before 14 */
    {{{0}}, 0, 's', 0, 65536, 60, {.number = 14, .place = 65536}},
};

static void check_example(const example *given) {
  lent log = empty_buffer(given->size), second = empty_buffer(given->second);
  size_t used = 0;
  for (size_t i = 0; i < 4 && given->records[i][0] != 0; i++) used = put_record(bytes(&log), used, given->records[i][0], given->records[i][1]);
  katchidul_log got = given->call == 'r'   ? read_log(&log, used)
                      : given->call == 'a' ? append(&log, used, given->tag, given->page, &second)
                                           : restart(&log, used, given->page, &second);
  char what[64];
  snprintf(what, sizeof what, "job log: example %d", (int)(given - examples));
  check(same(got, given->answer), what);
}

static void check_words(void) {
  lent log = empty_buffer(SIZE_MOST), second = empty_buffer(SIZE_MOST);
  for (size_t i = 0; i < sizeof examples / sizeof *examples; i++) check_example(examples + i);
  check(same(katchidul_read_log(NULL, 0, 0), (katchidul_log){0}), "a null pointer with size 0 is an empty log");
  check(katchidul_append(NULL, 0, 0, 1, 1, NULL, 0).number == KATCHIDUL_LOG_SECOND_SHORT, "two empty buffers have no room");
  check(read_log(&log, SIZE_MOST + 1).number == 9 && append(&log, SIZE_MAX, 1, 1, &second).number == 9 && restart(&log, 61, 0, &second).number == 9,
        "a `used` over the buffer's size");
  put_record(bytes(&log), 0, 1, 1);
  bytes(&log)[2] = 3;
  check(read_log(&log, 4).number == 0 && read_log(&log, 5).number == 13 && read_log(&log, 5).place == 1, "another length, once it is whole");
  check(right, "every byte of the examples of the job log");
}

/* ---- random jobs. What lasts is the two buffers and the place: which of them is the log, and how many of its bytes. */

static uint64_t random_state = 0x2545f4914f6cdd1du;

static uint32_t below(uint32_t end) {
  random_state ^= random_state << 13;
  random_state ^= random_state >> 7;
  random_state ^= random_state << 17;
  return (uint32_t)(random_state >> 32) % end;
}

typedef struct {
  lent buffers[2];
  int at;
  size_t used;
} disk;

/* The embosser has finished pages 1 to `count` and has those to `reached` in its tray; `out` is the last page that the host sent. */
typedef struct {
  disk disk;
  uint32_t out, count, reached;
} job;

static unsigned long crashes, moves, restarts;

/* No finished page goes out again, and none is skipped. */
static void send_page(job *j, uint32_t page) {
  right = right && page == j->reached + 1 && page > j->count;
  j->out = j->reached = page;
}

static void finish_page(job *j) {
  if (j->count < j->reached) j->count++;
}

/* The embosser drops its tray and reports its count, and the open pages go out again. */
static bool restarted(job *j) {
  disk *d = &j->disk;
  j->reached = j->count;
  katchidul_log got = restart(&d->buffers[d->at], d->used, j->count, &d->buffers[!d->at]);
  restarts++;
  right = right && (got.number == 0 || got.number == KATCHIDUL_LOG_SECOND_SHORT);
  if (got.number != 0) return false;
  d->at = !d->at, d->used = got.used;
  for (uint32_t page = got.finished + 1; page <= got.sent; page++) send_page(j, page);
  j->out = got.sent;
  return true;
}

static bool say_the_same(const katchidul_log *a, const katchidul_log *b) { return a->finished == b->finished && a->sent == b->sent; }

/* A crash: the log says what it said before the append or what it said after. A restart goes on with the page after those that the embosser
   has finished meanwhile. */
static void crash(job j, const katchidul_log *before, const katchidul_log *after) {
  katchidul_log got = read_log(&j.disk.buffers[j.disk.at], j.disk.used);
  crashes++;
  right = right && got.number == 0 && (say_the_same(&got, before) || say_the_same(&got, after));
  for (;; finish_page(&j)) {
    job next = j;
    if (restarted(&next)) {
      katchidul_log more = append(&next.disk.buffers[next.disk.at], next.disk.used, 1, next.out + 1, &next.disk.buffers[!next.disk.at]);
      right = right && (more.number == 0 || more.number == (next.out < KATCHIDUL_PAGE_MAX ? KATCHIDUL_LOG_SECOND_SHORT : KATCHIDUL_LOG_OUT_OF_TURN));
    }
    if (j.count == j.reached) return;
  }
}

/* An append whose bytes, and then the place, become lasting, with a crash after each byte, before the place is written and after. A host
   that takes `used` from the length of a file may find any number of the bytes that are there. */
static katchidul_log append_lasting(job *j, uint32_t tag, uint32_t page) {
  disk *d = &j->disk, made = *d;
  katchidul_log before = read_log(&d->buffers[d->at], d->used), after = append(&made.buffers[d->at], d->used, tag, page, &made.buffers[!d->at]);
  if (after.number != 0) return after;
  int to = after.moved ? !d->at : d->at;
  size_t from = after.moved ? 0 : before.used;
  moves += after.moved;
  for (size_t at = from; at <= after.used; at++) {
    crash(*j, &before, &before);
    for (size_t used = from; !after.moved && used <= at; used++) {
      job early = *j;
      early.disk.used = used;
      crash(early, &before, at == after.used ? &after : &before);
    }
    if (at < after.used) bytes(&d->buffers[to])[at] = bytes(&made.buffers[to])[at];
  }
  d->at = to, d->used = after.used;
  right = right && memcmp(d->buffers, made.buffers, sizeof made.buffers) == 0;
  crash(*j, &after, &after);
  return after;
}

/* Every count up to two above the sent pages. It begins at 0; if over 1,000 pages are finished, or over 70 at a step that is not a job's
   last, it begins two below those. And records of any tag. */
static void try_others(const job *j, bool last) {
  katchidul_log now = read_log(&((job *)j)->disk.buffers[j->disk.at], j->disk.used);
  uint32_t low = now.finished > (last ? 1000 : 70) ? now.finished - 2 : 0;
  for (uint32_t count = low; count <= now.sent + 2; count++) {
    disk d = j->disk;
    restart(&d.buffers[d.at], d.used, count, &d.buffers[!d.at]);
  }
  for (uint32_t tag = 0; tag <= 4; tag++) {
    disk d = j->disk;
    append(&d.buffers[d.at], d.used, tag, now.finished + below(now.sent - now.finished + 3), &d.buffers[!d.at]);
  }
}

static void step(job *j, bool last) {
  disk *d = &j->disk;
  katchidul_log now = read_log(&d->buffers[d->at], d->used);
  uint32_t kind = below(20);
  if (kind < 6) append_lasting(j, KATCHIDUL_RECORD_SENT, now.sent + 1);
  else if (kind < 12 && now.finished < j->count) append_lasting(j, KATCHIDUL_RECORD_DONE, now.finished + 1);
  else if (kind == 12) restarted(j);
  else finish_page(j);
  now = read_log(&d->buffers[d->at], d->used);
  if (below(4) && j->out < now.sent && j->out == j->reached) send_page(j, j->out + 1);
  try_others(j, last);
}

static void check_jobs(uint32_t steps) {
  right = true, crashes = moves = restarts = 0;
  for (size_t first = 0; first <= SIZE_MOST; first++) {
    for (size_t second = 0; second <= SIZE_MOST; second++) {
      job j = {.disk = {.buffers = {empty_buffer(first), empty_buffer(second)}}};
      if (first >= RECORD && below(2)) {
        j.out = j.count = j.reached = below(3) ? below(600) : 65500 + below(30);
        j.disk.used = put_record(bytes(&j.disk.buffers[0]), 0, KATCHIDUL_RECORD_FINISHED, j.count);
      }
      for (uint32_t i = 0; i < steps; i++) step(&j, i + 1 == steps);
    }
  }
  check(right, "jobs with a crash after every byte");
  check(crashes > 0 && moves > 0 && restarts > 0, "crashes, appends that compact and restarts are all met");
  printf("host: job logs in buffers of 0 to %d bytes: %lu crashes, %lu appends that compacted, %lu restarts\n", SIZE_MOST, crashes, moves, restarts);
}

/* ---- damaged logs */

static uint32_t some_page(uint32_t near) {
  static const uint32_t ends[] = {0, 1, 255, 256, 65535, 65536, UINT32_MAX};
  return below(8) ? near + below(4) - 1 : ends[below(sizeof ends / sizeof *ends)];
}

static lent some_log(void) {
  lent log = empty_buffer(below(SIZE_MOST + 1));
  says say = {.right = true};
  if (below(2)) say.finished = say.sent = below(2) ? below(6) : below(65536);
  for (size_t at = 0; at + RECORD <= log.size;) {
    bool done = say.finished < say.sent && below(2);
    uint32_t tag = at == 0 && say.sent > 0 ? 3 : done ? 2 : 1, page = tag == 3 ? say.sent : done ? say.finished + 1 : say.sent + 1;
    count_record(&say, tag, page);
    at = put_record(bytes(&log), at, tag, page);
  }
  if (log.size > 0 && below(3) == 0) bytes(&log)[below((uint32_t)log.size)] = (uint8_t)below(below(2) ? 5 : 256);
  return log;
}

static void check_damaged_logs(uint32_t calls) {
  uint32_t counts[32] = {0};
  right = true;
  for (uint32_t i = 0; i < calls; i++) {
    lent log = some_log(), second = empty_buffer(below(SIZE_MOST + 1));
    size_t used = below(16) ? below((uint32_t)log.size + 1) : log.size + below(3);
    katchidul_log now = read_log(&log, used);
    uint32_t tag = below(32) ? 1 + below(2) : below(5) * 256, page = some_page(below(2) ? now.sent : now.finished);
    katchidul_log got = below(2) ? append(&log, used, tag, page + 1, &second) : restart(&log, used, page, &second);
    counts[got.number % 32]++;
  }
  check(right, "damaged logs");
  check(counts[0] && counts[9] && counts[12] && counts[13] && counts[14], "each refusal of the job log among them");
}

void check_job_log(uint32_t calls) {
  right = true;
  check_words();
  check_jobs(calls >= 200000 ? 40 : 8);
  check_damaged_logs(calls);
}
