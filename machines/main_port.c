/* katchidul-port [options] SOCKET STATE DEVICE: writes the host's pages to a device or a network port. katchidul-port(8) says more. */
#include "driver.h"

#include <string.h>

int main(int count, char **words) {
  program = "katchidul-port";
  open_streams();
  if (count > 1 && strcmp(words[1], "answer") == 0) return answer_command(count - 2, words + 2);
  options o = options_read(count, words, false);
  braille_open(o.table);
  return serve(&o, open_state(o.folder, true));
}
