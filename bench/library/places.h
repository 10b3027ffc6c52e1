/* What the two programs that overwrite have in common. */
#ifndef PLACES_H
#define PLACES_H

#include <time.h>

/* So many writes, a sync or a transaction after each EACH of them, over so many blocks. */
enum { WRITES = 10000, EACH = 100, BLOCKS = 2048 };

/* In milliseconds. */
static inline double now(void) {
    struct timespec time;
    clock_gettime(CLOCK_MONOTONIC, &time);
    return 1e3 * (double)time.tv_sec + (double)time.tv_nsec / 1e6;
}

#endif
