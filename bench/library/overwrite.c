/* 10,000 overwrites of 512 bytes through a library for C, a sync after each hundred: with OVER_FILE the one over a file, else the one with
 * orders, which go to the file at once.
 *     overwrite make IMAGE SEGMENTS     an empty volume with a file of 1 MiB
 *     overwrite turn IMAGE              1,000 blocks of a new file in turn
 *     overwrite random IMAGE            blocks at random of the file that is there
 * The last two print the milliseconds from the mount on. */
#define _GNU_SOURCE
#include "../../clients/c/tests/library.h"
#include "places.h"

enum { VERSION = 2 };

static void make(struct image *image, const char *path, uint32_t segments) {
    static unsigned char part[65536];
    check(make_image(path, segments, VERSION) == 0 && mount_image(image, path, 0) == 0);
    int32_t file = CALL(create)(&image->volume, PATH("/f"));
    check(file >= 0);
    memset(part, 1, sizeof part);
    for (uint32_t at = 0; at < BLOCKS * SECTOR; at += sizeof part) {
        check(CALL(pwrite)(&image->volume, (uint32_t)file, at, part, sizeof part) == sizeof part);
    }
    check(save_image(image) == 0);
}

static void overwrite(struct image *image, int at_random) {
    unsigned char block[SECTOR];
    int32_t file = at_random ? CALL(open)(&image->volume, PATH("/f")) : CALL(create)(&image->volume, PATH("/ring"));
    check(file >= 0);
    for (uint32_t number = 0; number < WRITES; number++) {
        uint32_t place = at_random ? chance(BLOCKS) : number % 1000;
        memset(block, (int)(1 + number % 255), SECTOR);
        check(CALL(pwrite)(&image->volume, (uint32_t)file, (uint64_t)place * SECTOR, block, SECTOR) == SECTOR);
        if (number % EACH == EACH - 1) check(save_image(image) == 0);
    }
}

int main(int argc, char **argv) {
    struct image image;
    check(argc >= 3);
    if (!strcmp(argv[1], "make")) {
        check(argc == 4);
        make(&image, argv[2], (uint32_t)atoi(argv[3]));
    } else {
        check(mount_image(&image, argv[2], 0) == 0);
        double start = now();
        overwrite(&image, !strcmp(argv[1], "random"));
        printf("%.3f\n", now() - start);
    }
    drop_image(&image);
    return 0;
}
