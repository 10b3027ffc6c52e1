/* Saves the lines that wait. */
#ifndef RECORD_RECORDER_H
#define RECORD_RECORDER_H

#include "arguments.h"
#include "copies.h"
#include "image.h"
#include "ring.h"
#include "status.h"

struct recorder {
    struct image *image;
    struct ring *ring;
    struct rhythm rhythm;
    struct copies copies;
    struct status_file status;
    bool acknowledges;
    uint64_t saved;        /* so many lines, since the program began */
    uint64_t acknowledged; /* so many of them standard output was told of */
    struct losses losses;  /* since the program began */
    struct losses told;    /* what of them was told */
    time_t tended;         /* when all but saving was done last */
    time_t written;        /* when the status was written last */
};

/* Saves lines until the input ends: 0, or the status to end with, and then why was told. */
int recorder_run(struct recorder *recorder, const struct arguments *arguments);

#endif
