/* Numbers as the link, the options and the operator write them: 1 to 10 decimal digits and nothing else. */
#include "driver.h"

bool read_number(const char *digits, size_t length, uint32_t least, uint32_t most, uint32_t *number) {
  uint64_t value = 0;
  if (length < 1 || length > 10) return false;
  for (size_t i = 0; i < length; i++) {
    if (digits[i] < '0' || digits[i] > '9') return false;
    value = 10 * value + (uint64_t)(digits[i] - '0');
  }
  if (value < least || value > most) return false;
  *number = (uint32_t)value;
  return true;
}
