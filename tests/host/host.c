/* A host in C: calls the library on good, refused, stored, random and damaged orders, on print queues, job logs and sentences. Arguments: the
   file of stored answers, the folder of the examples, and how many random and damaged orders, and calls on queues and logs. */
#include <stdio.h>
#include <stdlib.h>

#include "host.h"

static unsigned long checks, failed;

void check(bool holds, const char *what) {
  checks++;
  if (holds) return;
  failed++;
  if (failed <= 50) printf("host: failed: %s\n", what);
}

int main(int count, char **arguments) {
  if (count != 4) {
    fprintf(stderr, "usage: host ANSWERS EXAMPLES ORDERS\n");
    return 2;
  }
  if (!ask_start() || !buffer_start()) {
    fprintf(stderr, "host: no pages to lend from\n");
    return 2;
  }
  check_names();
  check_refusals();
  check_ranges();
  check_records();
  check_write_order();
  check_days();
  check_instants();
  check_lines();
  check_cells();
  check_pieces(arguments[2]);
  check_sentences();
  check_map();
  check_ramadan();
  check_environment();
  check_threads();
  check_stack();
  check_stored(arguments[1]);
  check_damaged((uint32_t)strtoul(arguments[3], NULL, 10));
  check_queue((uint32_t)strtoul(arguments[3], NULL, 10));
  check_job_log((uint32_t)strtoul(arguments[3], NULL, 10));
  printf("host: %lu checks, %lu failed\n", checks, failed);
  return failed == 0 ? 0 : 1;
}
