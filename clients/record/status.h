/* A file of the host that says how the recorder is. */
#ifndef RECORD_STATUS_H
#define RECORD_STATUS_H

#include "image.h"
#include "ring.h"

struct status_file {
    const char *path; /* null where none is written */
    struct image *image;
    bool has_failed; /* it was told that it can't be written */
};

/* Writes an object of JSON in a line: how many lines are saved, what was lost, and how full the volume is. It takes the place of the one
 * before in one step. What fails is told once, and tried again the next time. */
void status_write(struct status_file *status, uint64_t saved, const struct losses *losses);

#endif
