/* The words of the command line. */
#include "driver.h"

#include <getopt.h>
#include <stdlib.h>
#include <string.h>

static const char common[] = "  --width CELLS    cells a line of the paper, 39 to 100; 40 if not given\n"
                             "  --height LINES   lines a page of the paper, 25 to 100; 25 if not given\n"
                             "  --cells          raw cells, a byte each, for a machine that does not take BRF\n"
                             "  --table TABLE    liblouis' table for covers and headings; en-ueb-g1.ctb if not given\n";

static const char of_cups[] = "  --user NAME      the user whose jobs they are in CUPS; katchidul if not given\n"
                              "  --format TYPE    the document's MIME type; application/vnd.cups-raw if not given\n"
                              "  --finish SECONDS how long CUPS may go on with a page when the host begins again; 30 if not given\n";

static void usage(FILE *to, bool cups) {
  fprintf(to, "usage: %s [options] SOCKET STATE %s\n", program, cups ? "QUEUE" : "DEVICE");
  fprintf(to, "       %s answer STATE JOB PAGES\n", program);
  if (!cups) fprintf(to, "DEVICE is a path, as /dev/usb/lp0, or HOST:PORT\n");
  fprintf(to, "%s%s", common, cups ? of_cups : "");
}

_Noreturn static void refuse(const char *option, const char *value, const char *wanted) {
  fprintf(stderr, "%s: --%s %s: it must be %s\n", program, option, value, wanted);
  exit(ENDED_BY_USAGE);
}

static uint32_t number_of(const char *option, const char *value, uint32_t least, uint32_t most, const char *wanted) {
  uint32_t number;
  if (!read_number(value, strlen(value), least, most, &number)) refuse(option, value, wanted);
  return number;
}

static void take(options *o, int option) {
  if (option == 'w') o->paper.width = number_of("width", optarg, KATCHIDUL_ROW_CELLS, PAPER_MAX, "39 to 100: a row has 39 cells");
  if (option == 'h') o->paper.height = number_of("height", optarg, KATCHIDUL_PAGE_ROWS, PAPER_MAX, "25 to 100: a page has 25 rows");
  if (option == 'f') o->finish = number_of("finish", optarg, 0, 3600, "0 to 3600 seconds");
  if (option == 'c') o->paper.raw = true;
  if (option == 't') o->table = optarg;
  if (option == 'u') o->user = optarg;
  if (option == 'm') o->format = optarg;
}

options options_read(int count, char **words, bool cups) {
  static const struct option names[] = {
      {"width", required_argument, NULL, 'w'}, {"height", required_argument, NULL, 'h'}, {"cells", no_argument, NULL, 'c'},
      {"table", required_argument, NULL, 't'}, {"help", no_argument, NULL, '?' + 256},   {"user", required_argument, NULL, 'u'},
      {"format", required_argument, NULL, 'm'}, {"finish", required_argument, NULL, 'f'}, {0}};
  options o = {.paper = {40, KATCHIDUL_PAGE_ROWS, false}, .table = "en-ueb-g1.ctb", .user = "katchidul",
               .format = "application/vnd.cups-raw", .finish = 30};
  for (int option; (option = getopt_long(count, words, "", names, NULL)) != -1;) {
    if (option == '?' + 256) usage(stdout, cups), exit(ENDED_WELL);
    if (option == '?' || (!cups && strchr("umf", option) != NULL)) usage(stderr, cups), exit(ENDED_BY_USAGE);
    take(&o, option);
  }
  if (count - optind != 3) usage(stderr, cups), exit(ENDED_BY_USAGE);
  if (o.paper.raw) o.paper.width = KATCHIDUL_ROW_CELLS, o.paper.height = KATCHIDUL_PAGE_ROWS;
  o.socket = words[optind];
  o.folder = words[optind + 1];
  o.machine = words[optind + 2];
  return o;
}
