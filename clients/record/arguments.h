/* The command line. */
#ifndef RECORD_ARGUMENTS_H
#define RECORD_ARGUMENTS_H

#include <stdbool.h>
#include <stdint.h>

/* What a command line asks for. */
struct arguments {
    const char *image;
    const char *input;  /* a FIFO that is read in place of standard input, or null */
    const char *serial; /* a terminal that is read in place of it, or null */
    const char *copy;   /* a folder that finished files are copied to, or null */
    const char *status; /* a file that says how the recorder is, or null */
    uint32_t baud;      /* of that terminal */
    uint32_t size;      /* bytes of the segments of a volume that is made */
    uint32_t lines;     /* so many are saved together */
    uint32_t seconds;   /* so long a line waits at most */
    uint32_t file;      /* the next file begins behind so many bytes */
    uint32_t keep;      /* so many files are kept at most, or for 0 as many as there is space for */
    uint32_t buffer;    /* bytes that may wait in memory */
    bool is_sparse;     /* no room is reserved for a volume that is made */
    bool acknowledges;  /* standard output is told how many lines are saved */
};

/* What comes of a command line. */
enum reading { READ_WELL, READ_HELP, READ_BADLY };

/* Reads a command line. Help goes to standard output, and what is wrong with it to standard error. It may change the words. */
enum reading arguments_read(struct arguments *arguments, char **words);

#endif
