/* What the programs have in common that time records. A record overwrites a block of 512 bytes, and is durable before the next begins. */
#ifndef RECORDS_H
#define RECORDS_H

#include "../../clients/c/tests/check.h"
#include "places.h"

enum { MOST_FILES = 8, MOST_RECORDS = 10000, PART = 128 };

/* The blocks of each file, and the file and the block of each record. */
struct records {
    uint32_t files, blocks[MOST_FILES];
    uint32_t count, file[MOST_RECORDS], block[MOST_RECORDS];
};

/* Reads them from standard input, as numbers in this order: the files, the blocks of each, the records, a file and a block for each. */
static inline void read_records(struct records *records) {
    check(scanf("%u", &records->files) == 1 && records->files <= MOST_FILES);
    for (uint32_t file = 0; file < records->files; file++) check(scanf("%u", &records->blocks[file]) == 1);
    check(scanf("%u", &records->count) == 1 && records->count <= MOST_RECORDS);
    for (uint32_t at = 0; at < records->count; at++) check(scanf("%u %u", &records->file[at], &records->block[at]) == 2);
}

/* A number for each block of each file. */
static inline uint32_t key_of(const struct records *records, uint32_t file, uint32_t block) {
    while (file > 0) block += records->blocks[--file];
    return block;
}

/* The bytes of a record by its number. */
static inline void record_bytes(unsigned char block[SECTOR], uint32_t number) {
    memset(block, (int)(1 + number % 255), SECTOR);
}

#endif
