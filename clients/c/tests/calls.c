/* Each call of the library, with its answers, and with each bad argument that the header allows.
 *     calls IMAGE */
#define _GNU_SOURCE
#include "both.h"
#include <fcntl.h>

/* A volume that holds nothing, and one of which sectors are being given. */
static void beginning(pansuyog *v) {
    static unsigned char sectors[3 * SECTOR];
    uint32_t sector = 7;
    unmounted(v);
    check(pansuyog_carried(v) == 0 && pansuyog_told(v) == 0 && pansuyog_done(v) == PANSUYOG_NOT_MOUNTED);
    check(pansuyog_order(v, 0, &sector, sectors, SECTOR) == PANSUYOG_NO_ORDER);
    check(pansuyog_run(v, 0, &sector, sectors, 3) == PANSUYOG_NO_ORDER && sector == 7);
    check(pansuyog_give(v, 0, sectors, SECTOR) == PANSUYOG_INVAL);
    check(pansuyog_mount(v, ROOM) == PANSUYOG_INVAL && pansuyog_format(v, 64, 1, ROOM) == PANSUYOG_INVAL);
    check(pansuyog_begin(v, 0) == 0 && pansuyog_give(v, 0, sectors, 0) == 0 && pansuyog_give(v, 0, sectors, SECTOR - 1) == 0);
    check(pansuyog_give(v, 0, sectors, SECTOR) == PANSUYOG_INVAL);
    check(pansuyog_begin(v, 3) == 0 && pansuyog_give(v, 0, sectors, 3 * SECTOR) == 0);
    check(pansuyog_give(v, 1, sectors, 3 * SECTOR) == PANSUYOG_INVAL);
    check(pansuyog_give(v, 3, sectors, SECTOR) == PANSUYOG_INVAL && pansuyog_give(v, UINT32_MAX, sectors, SECTOR) == PANSUYOG_INVAL);
    check(pansuyog_give(v, 3, sectors, SECTOR - 1) == 0);
    unmounted(v);
    check(pansuyog_carried(v) == 0 && pansuyog_told(v) == 0 && pansuyog_done(v) == PANSUYOG_NOT_MOUNTED);
    check(pansuyog_mount(v, 0) == PANSUYOG_TOO_SMALL);
    /* A device is there now, on which no volume is mounted. */
    check(pansuyog_told(v) == 0 && pansuyog_done(v) == 0 && pansuyog_give(v, 0, sectors, SECTOR) == PANSUYOG_INVAL);
    check(pansuyog_format(v, 64, 1, 0) == PANSUYOG_TOO_SMALL && pansuyog_format(v, 65, 1, 0) == PANSUYOG_INVAL);
    pansuyog_abandon(v);
    pansuyog_abandon(v);
    unmounted(v);
    check(pansuyog_mount(v, 0) == PANSUYOG_INVAL);
}

/* An empty volume is made and mounted. */
static void making(pansuyog *v, int fd) {
    check(pansuyog_mount_fd(v, fd, ROOM, NULL) == PANSUYOG_NO_CHECKPOINT);
    check(pansuyog_format_fd(v, fd, 0, 1, ROOM, NULL) == PANSUYOG_INVAL && pansuyog_format_fd(v, fd, 65, 1, ROOM, NULL) == PANSUYOG_INVAL);
    check(pansuyog_format_fd(v, fd, 1032, 1, ROOM, NULL) == PANSUYOG_INVAL);
    check(pansuyog_format_fd(v, fd, UINT32_MAX, 1, ROOM, NULL) == PANSUYOG_INVAL);
    check(pansuyog_format_fd(v, fd, 128, 0, ROOM, NULL) == PANSUYOG_INVAL);
    check(pansuyog_format_fd(v, fd, 128, 3, ROOM, NULL) == PANSUYOG_INVAL);
    check(pansuyog_format_fd(v, fd, 136, 1, ROOM, NULL) == PANSUYOG_TOO_SMALL);
    check(pansuyog_format_fd(v, fd, 128, 1, ROOM, NULL) == 0 && pansuyog_carried(v) == pansuyog_told(v) && pansuyog_told(v) > 0);
    unmounted(v);
    uint64_t before = pansuyog_told(v);
    check(pansuyog_mount(v, ROOM) == 0 && pansuyog_carried(v) == before && pansuyog_told(v) >= before);
    check(pansuyog_mount(v, ROOM) == PANSUYOG_ALREADY_MOUNTED && pansuyog_format(v, 128, 1, ROOM) == PANSUYOG_ALREADY_MOUNTED);
    check(pansuyog_carry(v, fd, NULL) == 0 && pansuyog_carried(v) == pansuyog_told(v));
}

/* A shape is looked at before the device's size, and only a device that is made on changes. */
static void refused_shapes(pansuyog *v) {
    const uint32_t sectors = 256 + 64 * 64;
    check(pansuyog_format_with(v, 64, 3, 64, 1, 0) == PANSUYOG_INVAL && pansuyog_begin(v, sectors - 1) == 0);
    check(pansuyog_format_with(v, 64, 3, 64, 3, 0) == PANSUYOG_INVAL && pansuyog_format_with(v, 128, 3, 64, 3, 0) == PANSUYOG_INVAL);
    check(pansuyog_format_with(v, 64, 4, 64, 1, 0) == PANSUYOG_INVAL && pansuyog_format_with(v, 64, 3, 32, 1, 0) == PANSUYOG_INVAL);
    check(pansuyog_format_with(v, 64, 3, 64, 8, 0) == PANSUYOG_TOO_SMALL && pansuyog_told(v) == 0);
    check(pansuyog_format_with(v, 64, 2, 64, 8, 0) == PANSUYOG_INVAL && pansuyog_format_with(v, 64, 2, 64, 1, 0) == 0);
    check(pansuyog_told(v) > 0 && pansuyog_done(v) == 0 && pansuyog_mount(v, 0) == 0 && is_shape(v, 64, 2, 1));
    check(pansuyog_format_with(v, 64, 2, 64, 8, 0) == PANSUYOG_ALREADY_MOUNTED);
    check(pansuyog_begin(v, sectors) == 0 && pansuyog_format_with(v, 64, 3, 64, 64, 0) == 0 && pansuyog_done(v) == 0);
    check(pansuyog_mount(v, 0) == 0 && is_shape(v, 64, 3, 64));
    pansuyog_abandon(v);
}

/* Runs of writes are the orders that follow one another, and no more than there is room for. */
static void runs(pansuyog *v, uint64_t first, uint64_t told) {
    static unsigned char run[64 * SECTOR];
    unsigned char bytes[SECTOR];
    uint32_t at = 7, sector = 7;
    check(pansuyog_run(v, first, &at, run, 0) == PANSUYOG_INVAL && pansuyog_run(v, told, &at, run, 64) == PANSUYOG_NO_ORDER && at == 7);
    check(pansuyog_run(v, UINT64_MAX, &at, run, 64) == PANSUYOG_NO_ORDER && pansuyog_run(v, told - 1, &at, run, 0) == 0 && at == 7);
    for (uint64_t number = first; number < told;) {
        int32_t count = pansuyog_run(v, number, &at, run, 64);
        check(count >= 0 && count <= 64);
        for (int32_t place = 0; place < count; place++) {
            check(pansuyog_order(v, number + (uint64_t)place, &sector, bytes, SECTOR) == 1);
            check(sector == at + (uint32_t)place && !memcmp(bytes, run + place * SECTOR, SECTOR));
        }
        number += count ? (uint64_t)count : 1;
        if (count == 0 || count == 64 || number == told) continue;
        check(pansuyog_order(v, number, &sector, bytes, SECTOR) == 0 || sector != at + (uint32_t)count);
    }
    check(pansuyog_run(v, first, &at, run, 1) == 1);
}

/* What waits isn't on the device, and each order is told by its number until all were carried out. */
static void orders(pansuyog *v, int fd) {
    unsigned char bytes[SECTOR + 1];
    uint32_t sector = 7;
    pansuyog other;
    check(pansuyog_fsync(v, 9) == PANSUYOG_BAD_HANDLE && pansuyog_fsync(v, 0) == 0 && pansuyog_clean(v) == 0);
    uint64_t first = pansuyog_carried(v), told = pansuyog_told(v);
    check(first < told);
    check(pansuyog_order(v, first - 1, &sector, bytes, SECTOR) == PANSUYOG_NO_ORDER);
    check(pansuyog_order(v, told, &sector, bytes, SECTOR) == PANSUYOG_NO_ORDER);
    check(pansuyog_order(v, UINT64_MAX, &sector, bytes, SECTOR) == PANSUYOG_NO_ORDER);
    check(pansuyog_order(v, first, &sector, bytes, SECTOR - 1) == PANSUYOG_INVAL && sector == 7);
    bytes[SECTOR] = 'z';
    for (uint64_t number = first; number < told; number++) {
        int32_t write = pansuyog_order(v, number, &sector, bytes, SECTOR + 1);
        check(write == 0 || (write == 1 && sector < SECTORS(128)));
        check(bytes[SECTOR] == 'z');
    }
    check(pansuyog_order(v, told - 1, &sector, bytes, SECTOR) == 0);
    runs(v, first, told);
    check(pansuyog_new(&other) == 0 && pansuyog_mount_fd(&other, fd, ROOM, NULL) == 0);
    check(pansuyog_open(&other, PATH("/a")) == PANSUYOG_NO_ENTRY);
    pansuyog_free(other);
    check(pansuyog_carry(v, fd, NULL) == 0 && pansuyog_carried(v) == told && pansuyog_told(v) == told);
    check(pansuyog_order(v, first, &sector, bytes, SECTOR) == PANSUYOG_NO_ORDER);
    check(pansuyog_new(&other) == 0 && pansuyog_mount_fd(&other, fd, ROOM, NULL) == 0 && pansuyog_open(&other, PATH("/a")) == 0);
    check(pansuyog_pread(&other, 0, 0, bytes, SECTOR) == 12);
    pansuyog_free(other);
}

/* Blocks of a large file are overwritten at random until a cleaning is due. Then passes are made, each of which gives so many orders at
 * most, until none is due; the file is as it was written. */
static void cleaning(pansuyog *v, int fd) {
    enum { BLOCKS = 4000, PART = 125, MOST_PASSES = 128 / 8, MOST_ORDERS = 8 * 128 + 520 };
    static unsigned char part[PART * SECTOR], last[BLOCKS];
    int32_t file = pansuyog_create(v, PATH("/large"));
    uint32_t passes = 0, writes = 0;
    memset(part, 1, sizeof part);
    memset(last, 1, sizeof last);
    check(file >= 0 && pansuyog_is_cleaning_due(v) == 0);
    for (uint64_t at = 0; at < BLOCKS * SECTOR; at += sizeof part) check(pansuyog_pwrite(v, (uint32_t)file, at, part, sizeof part) == sizeof part);
    check(pansuyog_save_fd(v, fd, NULL) == 0);
    uint64_t told = pansuyog_told(v);
    check(pansuyog_is_cleaning_due(v) == 0 && pansuyog_clean_once(v) == 0 && pansuyog_told(v) == told);
    for (; pansuyog_is_cleaning_due(v) == 0; writes++) {
        uint32_t block = chance(BLOCKS);
        last[block] = (unsigned char)(1 + writes % 255);
        memset(part, last[block], SECTOR);
        check(writes < 10000 && pansuyog_pwrite(v, (uint32_t)file, (uint64_t)block * SECTOR, part, SECTOR) == SECTOR);
        check(pansuyog_save_fd(v, fd, NULL) == 0);
    }
    for (; pansuyog_is_cleaning_due(v) == 1; passes++) {
        told = pansuyog_told(v);
        check(passes < MOST_PASSES && pansuyog_clean_once(v) == 0);
        check(pansuyog_told(v) > told && pansuyog_told(v) - told <= MOST_ORDERS && pansuyog_carry(v, fd, NULL) == 0);
    }
    check(passes > 0 && pansuyog_is_cleaning_due(v) == 0);
    for (uint64_t block = 0; block < BLOCKS; block++) {
        check(pansuyog_pread(v, (uint32_t)file, block * SECTOR, part, SECTOR) == SECTOR);
        check(part[0] == last[block] && part[SECTOR - 1] == last[block]);
    }
}

/* Whether a call was refused so by the system. */
static int is_refused(int32_t code, const pansuyog_failed_t *failed, enum pansuyog_failed_call call, int error) {
    return code == PANSUYOG_DEVICE && failed->call == call && failed->error == error;
}

/* Images are made, opened and locked. */
static void images(pansuyog *v, const char *image) {
    static char long_name[5000], made[4096];
    pansuyog_failed_t failed;
    memset(long_name, 'a', sizeof long_name - 1);
    snprintf(made, sizeof made, "%s.other", image);
    check(is_refused(pansuyog_make(long_name, 64, 2, &failed), &failed, PANSUYOG_AT_OPEN, ENAMETOOLONG));
    check(is_refused(pansuyog_open_fd(made, LOCK_SH, &failed), &failed, PANSUYOG_AT_OPEN, ENOENT));
    check(is_refused(pansuyog_open_fd(".", LOCK_SH, &failed), &failed, PANSUYOG_AT_OPEN, EISDIR));
    check(is_refused(pansuyog_open_fd("/dev/null", LOCK_EX, &failed), &failed, PANSUYOG_AT_OPEN, ENOTBLK));
    check(pansuyog_make(made, 0, 2, NULL) == PANSUYOG_INVAL && pansuyog_make(made, 65, 2, NULL) == PANSUYOG_INVAL);
    check(pansuyog_make(made, 56, 2, NULL) == PANSUYOG_INVAL && pansuyog_make(made, 1032, 2, NULL) == PANSUYOG_INVAL);
    check(pansuyog_make(made, 64, 0, NULL) == PANSUYOG_INVAL && pansuyog_make(made, 64, 3, NULL) == PANSUYOG_INVAL);
    check(pansuyog_make_with(image, 64, 3, 64, 8, &failed) == PANSUYOG_EXIST && failed.call == PANSUYOG_NO_CALL);
    check(pansuyog_make(image, 64, 2, &failed) == PANSUYOG_EXIST && failed.call == PANSUYOG_NO_CALL);
    check(pansuyog_make(made, 64, 1, &failed) == 0 && failed.call == PANSUYOG_NO_CALL && access(made, F_OK) == 0);
    int fd = pansuyog_open_fd(made, LOCK_SH, NULL), other = pansuyog_open_fd(made, LOCK_SH, NULL);
    check(fd > 2 && other > 2 && is_refused(pansuyog_lock_fd(fd, LOCK_EX, &failed), &failed, PANSUYOG_AT_LOCK, EWOULDBLOCK));
    check(close(other) == 0 && pansuyog_lock_fd(fd, LOCK_EX, &failed) == 0 && failed.call == PANSUYOG_NO_CALL);
    check(is_refused(pansuyog_open_fd(made, LOCK_SH, &failed), &failed, PANSUYOG_AT_LOCK, EWOULDBLOCK));
    check(pansuyog_mount_fd(v, fd, ROOM, NULL) == 0 && pansuyog_version(v) == 1);
    pansuyog_abandon(v);
    check(close(fd) == 0 && unlink(made) == 0);
}

/* What isn't saved goes with an unmount, and numbers of orders go on. */
static void unmounting(pansuyog *v, int fd) {
    uint64_t told = pansuyog_told(v);
    check(pansuyog_create(v, PATH("/b")) >= 0 && pansuyog_unmount(v) == 0 && pansuyog_unmount(v) == PANSUYOG_NOT_MOUNTED);
    check(pansuyog_told(v) == told);
    check(pansuyog_mount(v, ROOM) == 0 && pansuyog_open(v, PATH("/b")) == PANSUYOG_NO_ENTRY && pansuyog_told(v) >= told);
    check(pansuyog_carry(v, fd, NULL) == 0);
    check(pansuyog_version(v) == 2);
    pansuyog_abandon(v);
    unmounted(v);
}

int main(int argc, char **argv) {
    char shaped[4096];
    check(argc == 2);
    int fd = open(argv[1], O_RDWR | O_CREAT | O_TRUNC, 0600);
    check(fd >= 0 && ftruncate(fd, (off_t)SECTOR * SECTORS(128)) == 0);
    pansuyog volume;
    check(pansuyog_new(&volume) == 0);
    beginning(&volume);
    making(&volume, fd);
    files(&volume);
    names(&volume);
    looks(&volume);
    orders(&volume, fd);
    cleaning(&volume, fd);
    unmounting(&volume, fd);
    images(&volume, argv[1]);
    refused_shapes(&volume);
    pansuyog_free(volume);
    check(snprintf(shaped, sizeof shaped, "%s.shaped", argv[1]) > 0);
    shapes(shaped);
    recording(shaped);
    texts();
    check(pansuyog_damage(-101) == 1 && pansuyog_damage(-115) == 15 && pansuyog_damage(PANSUYOG_NOT_MOUNTED) == 0);
    check(pansuyog_damage(0) == 0);
    puts("each call answers as the header says");
    return 0;
}
