/* How much memory a full volume of 1,024 segments in a file takes, as the system counts what is resident.
 *     resident fill IMAGE           makes the volume
 *     resident overwrite IMAGE      mounts it, and overwrites 10,000 blocks at random with a sync behind each hundred */
#define _GNU_SOURCE
#ifndef OVER_FILE
#define OVER_FILE
#endif
#include "library.h"

enum { FILES = 3, PART = 65536, WRITES = 10000, EACH = 100, MOST_KIB = 5000 };

/* The files of a volume that takes no more. */
static const char *const names[FILES] = {"/0", "/1", "/2"};

/* Fills a file, until the volume has no space: whether it has some still. */
static int fill(pansuyog_file *volume, const char *name) {
    static unsigned char part[PART];
    int32_t file = pansuyog_file_create(volume, name, 2), code = 0;
    check(file >= 0);
    memset(part, 1, sizeof part);
    for (uint64_t at = 0; code >= 0; at += PART) {
        code = pansuyog_file_pwrite(volume, (uint32_t)file, at, part, PART);
        check(code == PART || code == PANSUYOG_FILE_TOO_BIG || code == PANSUYOG_NO_SPACE);
    }
    check(pansuyog_file_sync(volume) == 0 && pansuyog_file_close(volume, (uint32_t)file) == 0);
    return code == PANSUYOG_FILE_TOO_BIG;
}

/* Overwrites blocks of all files. */
static void overwrite(pansuyog_file *volume) {
    unsigned char block[SECTOR];
    pansuyog_stat_t stats[FILES];
    int32_t files[FILES];
    for (int number = 0; number < FILES; number++) {
        files[number] = pansuyog_file_open(volume, names[number], 2);
        check(files[number] >= 0 && pansuyog_file_stat(volume, names[number], 2, &stats[number]) == 0 && stats[number].size >= SECTOR);
    }
    for (int write = 1; write <= WRITES; write++) {
        uint32_t number = chance(FILES);
        uint64_t place = chance((uint32_t)(stats[number].size / SECTOR));
        memset(block, 1 + write % 255, SECTOR);
        check(pansuyog_file_pwrite(volume, (uint32_t)files[number], place * SECTOR, block, SECTOR) == SECTOR);
        if (write % EACH == 0) check(pansuyog_file_sync(volume) == 0);
    }
}

/* What is resident, or the most that was at once, in KiB: by the word of proc(5). */
static long resident(const char *word) {
    char line[256], form[64];
    long kib = -1;
    snprintf(form, sizeof form, "%s: %%ld kB", word);
    FILE *file = fopen("/proc/self/status", "r");
    check(file != NULL);
    while (kib < 0 && fgets(line, sizeof line, file) != NULL) sscanf(line, form, &kib);
    fclose(file);
    check(kib > 0);
    return kib;
}

int main(int argc, char **argv) {
    struct image image;
    long start = resident("VmRSS");
    check(argc == 3);
    int fills = strcmp(argv[1], "fill") == 0;
    if (fills) check(make_image(argv[2], 1024, 2) == 0);
    check(mount_image(&image, argv[2], 0) == 0);
    if (fills) {
        check(fill(&image.volume, names[0]) && fill(&image.volume, names[1]) && fill(&image.volume, names[2]) >= 0);
        drop_image(&image);
        return 0;
    }
    overwrite(&image.volume);
    long most = resident("VmHWM");
    drop_image(&image);
    printf("%ld KiB were resident at most, and %ld at the start\n", most, start);
    check(most - start <= MOST_KIB);
    return 0;
}
