/* Linked with -ffast-math, whose start-up code flushes subnormal numbers: the header's question must say so. */
#include "katchidul.h"

int main(void) { return katchidul_environment_is_default() == 0 ? 0 : 1; }
