/* Times records in a full volume of 1,024 segments, through the library for C, whose orders go to a file at once.
 *     volume_records IMAGE EACH     the records on standard input; a pass of the cleaner after each EACH of them, 0 for none
 * For each record, and for each pass that had something to do, a line: `record` or `pass`, its milliseconds, the sectors that it wrote. */
#define _GNU_SOURCE
#include "../../clients/c/pansuyog_fd.h"
#include "records.h"
#include <fcntl.h>

enum { SEGMENTS = 1024, PASS_ORDERS = 8 * SEGMENTS + 520 };

/* How many of the orders that wait are writes. */
static uint32_t writes_due(pansuyog *volume) {
    static unsigned char run[PANSUYOG_RUN * SECTOR];
    uint32_t writes = 0, first;
    uint64_t told = pansuyog_told(volume);
    for (uint64_t number = pansuyog_carried(volume); number < told;) {
        int32_t count = pansuyog_run(volume, number, &first, run, PANSUYOG_RUN);
        check(count >= 0);
        writes += (uint32_t)count;
        number += count == 0 ? 1 : (uint64_t)count;
    }
    return writes;
}

/* Carries out what a call told, which began then, and prints its line. */
static void finish(pansuyog *volume, int fd, const char *what, double start) {
    double called = now() - start;
    uint32_t writes = writes_due(volume);
    start = now();
    check(pansuyog_carry(volume, fd, NULL) == 0);
    if (writes > 0) printf("%s %.4f %u\n", what, called + now() - start, writes);
}

/* Fills the files, with a sync after each MiB. */
static void fill(pansuyog *volume, int fd, const struct records *records) {
    static unsigned char part[PART * SECTOR];
    uint32_t number = 0;
    char path[] = "/f0";
    for (uint32_t file = 0; file < records->files; file++) {
        path[2] = (char)('0' + file);
        check(pansuyog_create(volume, PATH(path)) == (int32_t)file);
        for (uint32_t block = 0; block < records->blocks[file]; block += PART) {
            uint32_t count = records->blocks[file] - block < PART ? records->blocks[file] - block : PART;
            memset(part, (int)(1 + number++ % 255), sizeof part);
            check(pansuyog_pwrite(volume, file, (uint64_t)block * SECTOR, part, count * SECTOR) == (int32_t)(count * SECTOR));
            if (number % 16 == 0) check(pansuyog_save_fd(volume, fd, NULL) == 0);
        }
    }
    check(pansuyog_save_fd(volume, fd, NULL) == 0);
}

static void overwrite(pansuyog *volume, int fd, const struct records *records, uint32_t each) {
    unsigned char block[SECTOR];
    for (uint32_t at = 0; at < records->count; at++) {
        record_bytes(block, at);
        double start = now();
        check(pansuyog_pwrite(volume, records->file[at], (uint64_t)records->block[at] * SECTOR, block, SECTOR) == SECTOR);
        check(pansuyog_sync(volume) == 0);
        finish(volume, fd, "record", start);
        if (each == 0 || at % each != each - 1) continue;
        uint64_t told = pansuyog_told(volume);
        start = now();
        check(pansuyog_clean_once(volume) == 0 && pansuyog_told(volume) - told <= PASS_ORDERS);
        finish(volume, fd, "pass", start);
    }
}

int main(int argc, char **argv) {
    static struct records records;
    pansuyog volume;
    check(argc == 3);
    read_records(&records);
    int fd = open(argv[1], O_RDWR | O_CREAT | O_TRUNC, 0600);
    check(fd >= 0 && ftruncate(fd, (off_t)SECTOR * SECTORS(SEGMENTS)) == 0 && pansuyog_new(&volume) == 0);
    check(pansuyog_format_fd(&volume, fd, SEGMENTS, 1, ROOM, NULL) == 0 && pansuyog_mount_fd(&volume, fd, PASS_ORDERS, NULL) == 0);
    fill(&volume, fd, &records);
    overwrite(&volume, fd, &records, (uint32_t)atoi(argv[2]));
    pansuyog_free(volume);
    return 0;
}
