/* Times a turn of a full print queue beside one of a ring, both by value:
       tools/build katchidul
       cc -O2 -Iinclude bench/queue.c target/staticlib/libkatchidul.a -o turns && ./turns */
#include <stdio.h>
#include <time.h>

#include "katchidul.h"

#define TURNS 5000000

typedef struct {
  uint32_t front;
  katchidul_queue queue;
} ring;

typedef struct {
  uint32_t id, pages;
  ring ring;
} ring_turned;

__attribute__((noinline)) static ring_turned ring_turn(ring given) {
  katchidul_queue *queue = &given.queue;
  if (queue->jobs == 0) return (ring_turned){.ring = given};
  uint32_t at = given.front % KATCHIDUL_JOBS_MAX, id = queue->ids[at], pages = queue->pages[at] - 1;
  queue->ids[at] = queue->pages[at] = 0;
  given.front = at + 1, queue->jobs--;
  if (pages > 0) {
    uint32_t last = (given.front + queue->jobs++) % KATCHIDUL_JOBS_MAX;
    queue->ids[last] = id, queue->pages[last] = pages;
  }
  return (ring_turned){id, pages, given};
}

static double nanoseconds(void) {
  struct timespec time;
  clock_gettime(CLOCK_PROCESS_CPUTIME_ID, &time);
  return 1e9 * (double)time.tv_sec + (double)time.tv_nsec;
}

int main(void) {
  katchidul_queue queue = {.jobs = KATCHIDUL_JOBS_MAX};
  for (uint32_t i = 0; i < KATCHIDUL_JOBS_MAX; i++) queue.ids[i] = i + 1, queue.pages[i] = UINT32_MAX;
  ring round = {0, queue};
  for (int again = 0; again < 3; again++) {
    double start = nanoseconds();
    for (int i = 0; i < TURNS; i++) queue = katchidul_turn(queue).queue;
    double between = nanoseconds();
    for (int i = 0; i < TURNS; i++) round = ring_turn(round).ring;
    double end = nanoseconds();
    printf("a turn of %u jobs: %.0f ns; of a ring: %.0f ns\n", queue.jobs, (between - start) / TURNS, (end - between) / TURNS);
  }
  return queue.pages[0] == round.queue.pages[round.front % KATCHIDUL_JOBS_MAX] ? 0 : 1;
}
