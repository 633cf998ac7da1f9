/* The way to a machine on a device or a network port. Nothing here waits: a call does what can be done now. */
#ifndef PORT_CHANNEL_H
#define PORT_CHANNEL_H

#include "driver.h"

typedef enum { CHANNEL_WAITS, CHANNEL_READY, CHANNEL_FAILED } channel_state;

/* Notes the name. The driver ends if it is neither a device's path nor HOST:PORT. */
void channel_name(const char *name);

/* Opens the way. CHANNEL_WAITS until the machine has taken the connection. */
channel_state channel_open(void);

/* Writes some bytes, and returns how many, or -1 if the machine failed. */
ssize_t channel_write(const uint8_t *bytes, size_t length);

/* Called after the last byte of a page: CHANNEL_READY when the machine has taken all bytes. */
channel_state channel_drain(void);

void channel_close(void);

/* The open file, or -1, and why the last call failed. */
int channel_fd(void);
const char *channel_why(void);

#endif
