/* Lines that wait between the thread that reads them and the one that saves them. */
#ifndef RECORD_RING_H
#define RECORD_RING_H

#include <pthread.h>
#include <stdbool.h>
#include <stddef.h>
#include <stdint.h>
#include <time.h>

/* The most bytes of a line that the library takes, without its newline. */
enum { LONGEST_LINE = 65535 };

/* So many bytes of lines are taken at most at a time. A ring has as many at least, so that the longest line fits. */
enum { MOST_TAKEN = 131072 };

/* How an input ended. */
struct ending {
    int signal; /* the number of the signal that ended it, or 0 */
    int error;  /* the number of errno.h for which it can't be read, or 0 */
};

/* What wasn't taken of the input. */
struct losses {
    uint64_t lost;      /* bytes for which there was no room */
    uint64_t cut_lines; /* lines that were longer than the longest */
    uint64_t cut_bytes; /* what was beyond that of these */
};

struct ring {
    pthread_mutex_t lock;
    pthread_cond_t filled;  /* lines may be due */
    pthread_cond_t drained; /* there may be room again */
    unsigned char *bytes;
    size_t size, start, length;
    size_t whole; /* so many of the bytes are whole lines, each with its newline; the others are the beginning of one */
    size_t lines; /* so many whole lines */
    struct timespec oldest; /* when the first of them was whole, or earlier */
    bool waits;   /* the reader waits for room, and nothing is lost */
    bool skips;   /* the rest of the line that comes is lost */
    bool is_cut;  /* the line that comes is longer than the longest */
    bool has_ended, is_stopped;
    struct ending ending;
    struct losses losses;
};

/* Begins an empty ring of so many bytes: false where memory or the system refuses it. */
bool ring_begin(struct ring *ring, size_t size);
void ring_free(struct ring *ring);

/* Of the reader: puts bytes of the input behind the others. False once nobody takes lines any more. */
bool ring_put(struct ring *ring, const unsigned char *bytes, size_t count);
/* Of the reader: nothing more comes. A last line without a newline gets one. */
void ring_finish(struct ring *ring, struct ending ending);

/* When lines are due. */
struct rhythm {
    size_t lines;   /* so many wait */
    time_t seconds; /* or the oldest has waited so long */
    time_t glance;  /* where none are due the saver looks up after so long */
};

/* Of the saver: waits until lines are due, and takes those that wait, up to MOST_TAKEN bytes: how many bytes. That are none where none is
 * due yet. False once the input has ended and all was taken. What was lost since the last time is added to `losses`. */
bool ring_take(struct ring *ring, const struct rhythm *rhythm, unsigned char *taken, size_t *count, struct losses *losses);
/* Of the saver: whether nothing waits, nor has the input ended. */
bool ring_is_idle(struct ring *ring);
/* Of the saver: nobody takes lines any more. */
void ring_stop(struct ring *ring);

#endif
