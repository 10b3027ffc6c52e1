/* The power goes: all writes and syncs of a file are kept, and the file is stopped behind any number of them. Each sector that wasn't
 * synced then holds its old bytes or its new ones, and some later writes were begun. A mount finds all that was told. It is linked with
 * --wrap=pwrite and --wrap=fsync.
 *     stops_file ROUNDS SEED IMAGE */
#define _GNU_SOURCE
#ifndef OVER_FILE
#define OVER_FILE
#endif
#include "stopped.h"

ssize_t __real_pwrite(int fd, const void *bytes, size_t length, off_t offset);
int __real_fsync(int fd);

/* Whether what is done to the file is kept. */
static int is_kept;

static void keep(int32_t write, uint32_t sector, const void *bytes) {
    if (!is_kept) return;
    check(count < MOST_ORDERS);
    orders[count].write = write;
    orders[count].sector = sector;
    if (write) memcpy(orders[count].bytes, bytes, SECTOR);
    count++;
}

ssize_t __wrap_pwrite(int fd, const void *bytes, size_t length, off_t offset) {
    check(length % SECTOR == 0 && offset % SECTOR == 0);
    for (size_t at = 0; at < length; at += SECTOR) keep(1, (uint32_t)((offset + (off_t)at) / SECTOR), (const unsigned char *)bytes + at);
    return __real_pwrite(fd, bytes, length, offset);
}

int __wrap_fsync(int fd) {
    keep(0, 0, NULL);
    return __real_fsync(fd);
}

/* It was kept as it was done. */
static void take(pansuyog_file *volume) {
    (void)volume;
}

/* Reads or writes a whole image. */
static void move(const char *image, unsigned char sectors[][SECTOR], int writes) {
    int fd = open(image, O_RDWR);
    check(fd >= 0);
    for (size_t at = 0; at < sizeof start;) {
        unsigned char *bytes = &sectors[0][0] + at;
        ssize_t moved = writes ? __real_pwrite(fd, bytes, sizeof start - at, (off_t)at) : pread(fd, bytes, sizeof start - at, (off_t)at);
        check(moved > 0);
        at += (size_t)moved;
    }
    check(close(fd) == 0);
}

int main(int argc, char **argv) {
    check(argc == 4);
    int rounds = atoi(argv[1]);
    chance_state = (uint64_t)atoll(argv[2]) * 2654435761u + 1;
    struct image image;
    check((unlink(argv[3]) == 0 || errno == ENOENT) && make_image(argv[3], SEGMENTS, 1) == 0);
    move(argv[3], start, 0);
    is_kept = 1;
    check(mount_image(&image, argv[3], 0) == 0);
    run(&image.volume);
    is_kept = 0;
    drop_image(&image);
    check(times > 0 && told[0].orders > 0 && !orders[told[0].orders - 1].write);
    printf("%zu writes and syncs of a file, %zu times told\n", count, times);
    for (int round = 0; round < rounds; round++) {
        size_t stop = chance((uint32_t)count + 1);
        stop_behind(stop, 0);
        move(argv[3], left, 1);
        check(mount_image(&image, argv[3], 1) == 0);
        look(&image.volume, told_by(stop));
        drop_image(&image);
    }
    printf("%d stops of a file, each mount found what was told\n", rounds);
    return 0;
}
