/* Copies of the files that are finished, in a folder of the host. */
#ifndef RECORD_COPIES_H
#define RECORD_COPIES_H

#include "image.h"
#include <stdint.h>

/* A recorder's file has a name of so many bytes: eight digits, a hyphen and a day. */
enum { NAME_LENGTH = 19 };

struct copies {
    const char *folder; /* null where no copies are made */
    struct image *image;
    uint32_t copied;    /* the greatest number below which nothing is left to be copied */
    uint32_t newest;    /* the number of the newest file as it was looked at last */
};

/* Copies each file that is finished and that the folder hasn't got, where a newer one has begun since the last look. It is called behind a
 * save. What fails is told, and tried again once the next file begins: the recorder goes on without it. */
void copies_look(struct copies *copies);

#endif
