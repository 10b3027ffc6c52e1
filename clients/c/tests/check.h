/* What the tests have in common. */
#ifndef CHECK_H
#define CHECK_H

#include <stdint.h>
#include <stdio.h>
#include <stdlib.h>
#include <string.h>

#define check(holds)                                                          \
    do {                                                                      \
        if (!(holds)) {                                                       \
            fprintf(stderr, "%s:%d: not so: %s\n", __FILE__, __LINE__, #holds); \
            exit(1);                                                          \
        }                                                                     \
    } while (0)

/* A path with its length, as two arguments. */
#define PATH(text) text, sizeof(text) - 1

enum { ROOM = 1100, SECTOR = 512 };

/* How many sectors a volume of so many segments takes. */
#define SECTORS(segments) (2 + 64 * (segments))

/* Numbers that look random, the same in each run (xorshift64). */
static uint64_t chance_state = 88172645463325252u;
static inline uint32_t chance(uint32_t below) {
    chance_state ^= chance_state << 13;
    chance_state ^= chance_state >> 7;
    chance_state ^= chance_state << 17;
    return (uint32_t)((chance_state >> 20) % below);
}

/* A record of 64 bytes with a number in it. */
static inline void record_of(char record[64], uint32_t number) {
    memset(record, 0, 64);
    snprintf(record, 64, "record %u", number);
}

#endif
