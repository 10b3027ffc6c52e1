/* A descriptor that fails a write or a sync, each in turn: which it was is told, and why. The volume is abandoned then, and a mount of
 * what the file holds finds all that was told. And one that can't read a sector: no other is lost by it.
 *     failing IMAGE */
#define _GNU_SOURCE
#include <errno.h>
#include <fcntl.h>
#include <stdint.h>
#include <sys/types.h>
#include <unistd.h>

/* So many calls of the device are left before one fails; none does below 0. Whether a sync was what failed. */
static long calls_left = -1;
static int is_sync;

static int fails(int sync) {
    int now = calls_left >= 0 && calls_left-- == 0;
    if (now) is_sync = sync;
    return now;
}

/* The write that fails has put a part of its bytes. */
static ssize_t failing_pwrite(int fd, const void *bytes, size_t count, off_t offset) {
    if (!fails(0)) return pwrite(fd, bytes, count, offset);
    if (pwrite(fd, bytes, count / 2 / 512 * 512, offset) < 0) return -1;
    errno = ENOSPC;
    return -1;
}

static int failing_fsync(int fd) {
    if (!fails(1)) return fsync(fd);
    errno = EIO;
    return -1;
}

/* The sector that can't be read. */
static off_t bad = -1;

static ssize_t failing_pread(int fd, void *bytes, size_t count, off_t offset) {
    if (bad < offset / 512 || bad > (offset + (off_t)count - 1) / 512) return pread(fd, bytes, count, offset);
    errno = EIO;
    return -1;
}

#define pread failing_pread
#define pwrite failing_pwrite
#define fsync failing_fsync
#include "../pansuyog_fd.h"
#undef pread
#undef pwrite
#undef fsync
#include "check.h"

/* Appends four records to /log, which has so many, and saves them: how many are there then. */
static int32_t append(pansuyog *volume, int fd, uint32_t records, pansuyog_failed_t *failed) {
    char bytes[64];
    int32_t handle = pansuyog_open(volume, PATH("/log"));
    if (handle < 0) handle = pansuyog_create(volume, PATH("/log"));
    check(handle >= 0);
    for (uint32_t number = records; number < records + 4; number++) {
        record_of(bytes, number);
        check(pansuyog_pwrite(volume, (uint32_t)handle, (uint64_t)number * 64, bytes, 64) == 64);
    }
    check(pansuyog_close(volume, (uint32_t)handle) == 0);
    return pansuyog_save_fd(volume, fd, failed);
}

/* How many whole records there are. */
static uint32_t records_in(pansuyog *volume) {
    pansuyog_stat_t stat = {0};
    char want[64], bytes[64];
    int32_t handle = pansuyog_open(volume, PATH("/log"));
    if (handle < 0) return 0;
    check(pansuyog_stat(volume, PATH("/log"), &stat) == 0 && stat.size % 64 == 0);
    for (uint32_t number = 0; number < stat.size / 64; number++) {
        record_of(want, number);
        check(pansuyog_pread(volume, (uint32_t)handle, (uint64_t)number * 64, bytes, 64) == 64 && !memcmp(want, bytes, 64));
    }
    check(pansuyog_close(volume, (uint32_t)handle) == 0);
    return (uint32_t)(stat.size / 64);
}

/* One of the two slots of checkpoints holds the newest one: without it an older tree or none is found. Without any sector that no tree
 * needs all is found. */
static void read_around(pansuyog *volume, int fd, uint32_t records) {
    unsigned whole = 0;
    pansuyog_failed_t failed;
    for (bad = 0; bad < 2; bad++) {
        int32_t code = pansuyog_mount_fd(volume, fd, ROOM, &failed);
        check(code == 0 || code == PANSUYOG_NO_CHECKPOINT || pansuyog_damage(code) > 0);
        if (code == 0) check(failed.call == PANSUYOG_NO_CALL);
        else check(failed.call == PANSUYOG_AT_READ && failed.sector == bad && failed.error == EIO);
        whole += code == 0 && records_in(volume) == records;
        pansuyog_abandon(volume);
    }
    check(whole == 1);
    for (bad = SECTORS(64) - 1; bad > SECTORS(64) - 200; bad -= 50) {
        check(pansuyog_mount_fd(volume, fd, ROOM, NULL) == 0 && records_in(volume) == records);
        pansuyog_abandon(volume);
    }
    bad = -1;
}

int main(int argc, char **argv) {
    check(argc == 2);
    int fd = open(argv[1], O_RDWR | O_CREAT | O_TRUNC, 0600);
    check(fd >= 0 && ftruncate(fd, (off_t)SECTOR * SECTORS(64)) == 0);
    pansuyog volume;
    check(pansuyog_new(&volume) == 0 && pansuyog_format_fd(&volume, fd, 64, 1, ROOM, NULL) == 0);
    uint32_t told = 0, failures = 0, syncs = 0;
    pansuyog_failed_t failed;
    for (long left = 0; left < 60; left++) {
        calls_left = -1;
        check(pansuyog_mount_fd(&volume, fd, ROOM, NULL) == 0);
        uint32_t records = records_in(&volume);
        check(records == told || records == told + 4);
        calls_left = left % 12;
        int32_t code = append(&volume, fd, records, &failed);
        calls_left = -1;
        check(code == 0 || code == PANSUYOG_DEVICE);
        if (code == 0) check(failed.call == PANSUYOG_NO_CALL && failed.error == 0);
        told = code == 0 ? records + 4 : records;
        if (code == PANSUYOG_DEVICE) {
            failures++;
            syncs += is_sync;
            check(failed.call == (is_sync ? PANSUYOG_AT_SYNC : PANSUYOG_AT_WRITE) && failed.error == (is_sync ? EIO : ENOSPC));
            check(pansuyog_sync(&volume) == PANSUYOG_NOT_MOUNTED && pansuyog_told(&volume) == 0);
        }
    }
    check(pansuyog_mount_fd(&volume, fd, ROOM, NULL) == 0);
    check(append(&volume, fd, records_in(&volume), NULL) == 0);
    read_around(&volume, fd, records_in(&volume));
    /* A descriptor that can't be written or read at all. */
    int reader = open(argv[1], O_RDONLY), pipes[2];
    check(pansuyog_mount_fd(&volume, fd, ROOM, NULL) == 0 && pansuyog_create(&volume, PATH("/c")) == 0);
    check(pansuyog_save_fd(&volume, reader, &failed) == PANSUYOG_DEVICE && pansuyog_sync(&volume) == PANSUYOG_NOT_MOUNTED);
    check(failed.call == PANSUYOG_AT_WRITE && failed.error == EBADF);
    check(pipe(pipes) == 0 && pansuyog_mount_fd(&volume, pipes[0], ROOM, &failed) == PANSUYOG_DEVICE);
    check(failed.call == PANSUYOG_AT_READ && failed.error == ESPIPE);
    check(pansuyog_mount_fd(&volume, -1, ROOM, NULL) == PANSUYOG_DEVICE);
    check(failures >= 15 && syncs > 0 && syncs < failures);
    pansuyog_free(volume);
    printf("%u calls of a device failed, and no record that was told of is gone\n", failures);
    return 0;
}
