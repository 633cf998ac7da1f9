/* Works the first day of an order on standard input, or with an argument only reads it. bench/instructions counts the call. */
#include <stdio.h>

#include "katchidul.h"

int main(int words, char **word) {
  uint8_t order[KATCHIDUL_ORDER_MAX];
  size_t length = fread(order, 1, sizeof order, stdin);
  (void)word;
  if (words > 1) return (int)katchidul_read_order(order, length).number;
  return (int)katchidul_work_day(order, length, 0).number;
}
