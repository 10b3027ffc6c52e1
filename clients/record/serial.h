/* A terminal that an instrument writes to. */
#ifndef RECORD_SERIAL_H
#define RECORD_SERIAL_H

#include <stdbool.h>
#include <stdint.h>

/* Whether a terminal may have this speed. */
bool serial_has_speed(uint32_t baud);
/* Opens a terminal that gives each byte as it comes, at such a speed: its descriptor, or -1 with errno. */
int serial_open(const char *path, uint32_t baud);

#endif
