/* The input, which a thread of its own reads. It never touches the volume. */
#ifndef RECORD_INPUT_H
#define RECORD_INPUT_H

#include "arguments.h"
#include "ring.h"

struct input {
    const char *name;
    int fd;
    int held;    /* the other end of a FIFO, so that a writer that goes doesn't end it; or -1 */
    int stop;    /* a byte that can be read here ends the reading: the number of a signal, or 0 */
    bool waits;  /* its bytes stay where they are until they are read: it is a file */
    bool never_ends; /* an end of it is a terminal that went away */
    struct ring *ring;
    pthread_t reader;
};

/* Opens what the arguments name. False where it is refused, which was told. */
bool input_open(struct input *input, const struct arguments *arguments, int stop);
/* Starts the thread that reads into a ring: false where the system refuses one, which was told. */
bool input_start(struct input *input, struct ring *ring);
/* Waits for the end of that thread. */
void input_join(struct input *input);
/* Closes what was opened. */
void input_close(struct input *input);

#endif
