/* katchidul-cups [options] SOCKET STATE QUEUE: prints the host's pages through a CUPS queue. katchidul-cups(8) says more. */
#include "driver.h"

#include <string.h>

int main(int count, char **words) {
  program = "katchidul-cups";
  open_streams();
  if (count > 1 && strcmp(words[1], "answer") == 0) return answer_command(count - 2, words + 2);
  options o = options_read(count, words, true);
  braille_open(o.table);
  return serve(&o, open_state(o.folder, true));
}
