/* A file that fails: each write and sync in turn, a read, and calls that are interrupted or short. No record that was told of is gone. It
 * is linked with --wrap=pread, --wrap=pwrite and --wrap=fsync.
 *     failing_file IMAGE */
#define _GNU_SOURCE
#ifndef OVER_FILE
#define OVER_FILE
#endif
#include "library.h"

ssize_t __real_pread(int fd, void *bytes, size_t count, off_t offset);
ssize_t __real_pwrite(int fd, const void *bytes, size_t count, off_t offset);
int __real_fsync(int fd);

/* So many writes and syncs are left before one fails; none does below 0. Whether a sync was what failed. */
static long calls_left = -1;
static int is_sync;

/* The sector that can't be read, if there is one, and whether none can. */
static off_t bad = -1;
static int is_unreadable;

/* Whether two of three calls are interrupted, and the third moves no more than 100 bytes. How many were. */
static int is_disturbed;
static unsigned interrupted, calls;

static int fails(int sync) {
    int now = calls_left >= 0 && calls_left-- == 0;
    if (now) is_sync = sync;
    return now;
}

static int interrupts(void) {
    int now = is_disturbed && calls++ % 3 != 2;
    interrupted += (unsigned)now;
    if (now) errno = EINTR;
    return now;
}

static size_t part_of(size_t count) {
    return is_disturbed && count > 100 ? 100 : count;
}

ssize_t __wrap_pread(int fd, void *bytes, size_t count, off_t offset) {
    if (interrupts()) return -1;
    if (!is_unreadable && bad != offset / SECTOR) return __real_pread(fd, bytes, part_of(count), offset);
    errno = EIO;
    return -1;
}

/* The write that fails has put no byte, as a medium writes a sector whole. */
ssize_t __wrap_pwrite(int fd, const void *bytes, size_t count, off_t offset) {
    if (interrupts()) return -1;
    if (!fails(0)) return __real_pwrite(fd, bytes, part_of(count), offset);
    errno = ENOSPC;
    return -1;
}

int __wrap_fsync(int fd) {
    if (interrupts()) return -1;
    if (!fails(1)) return __real_fsync(fd);
    errno = EIO;
    return -1;
}

/* Appends four records to /log, which has so many, and saves them. */
static int32_t append(pansuyog_file *volume, uint32_t records) {
    char bytes[64];
    int32_t handle = pansuyog_file_open(volume, PATH("/log"));
    if (handle == PANSUYOG_NO_ENTRY) handle = pansuyog_file_create(volume, PATH("/log"));
    int32_t code = handle < 0 ? handle : 0;
    for (uint32_t number = records; code >= 0 && number < records + 4; number++) {
        record_of(bytes, number);
        code = pansuyog_file_pwrite(volume, (uint32_t)handle, (uint64_t)number * 64, bytes, 64);
    }
    if (code >= 0) code = pansuyog_file_close(volume, (uint32_t)handle);
    return code < 0 ? code : pansuyog_file_sync(volume);
}

/* How many whole records there are. */
static uint32_t records_in(pansuyog_file *volume) {
    pansuyog_stat_t stat = {0};
    char want[64], bytes[64];
    int32_t handle = pansuyog_file_open(volume, PATH("/log"));
    if (handle < 0) return 0;
    check(pansuyog_file_stat(volume, PATH("/log"), &stat) == 0 && stat.size % 64 == 0);
    for (uint32_t number = 0; number < stat.size / 64; number++) {
        record_of(want, number);
        check(pansuyog_file_pread(volume, (uint32_t)handle, (uint64_t)number * 64, bytes, 64) == 64 && !memcmp(want, bytes, 64));
    }
    check(pansuyog_file_close(volume, (uint32_t)handle) == 0);
    return (uint32_t)(stat.size / 64);
}

/* Where a write or a sync fails each later call is refused, and the reason is told. A mount finds all that was told of. */
static void fail_each(pansuyog_file *volume) {
    uint32_t told = 0, failures = 0, syncs = 0;
    for (long left = 0; left < 60; left++) {
        check(pansuyog_file_mount(volume) == 0);
        uint32_t records = records_in(volume);
        check(records == told || records == told + 4);
        calls_left = left % 12;
        int32_t code = append(volume, records);
        int failed = calls_left < 0;
        calls_left = -1;
        check(code == (failed ? PANSUYOG_HALTED : 0));
        told = code == 0 ? records + 4 : records;
        if (failed) check(pansuyog_file_errno(volume) == (is_sync ? EIO : ENOSPC));
        if (failed) check(pansuyog_file_sync(volume) == PANSUYOG_HALTED && pansuyog_file_open(volume, PATH("/log")) == PANSUYOG_HALTED);
        failures += (unsigned)failed;
        syncs += (unsigned)(failed && is_sync);
        check(pansuyog_file_unmount(volume) == 0);
    }
    check(failures >= 15 && syncs > 0 && syncs < failures);
    printf("%u calls of a file failed, and no record that was told of is gone\n", failures);
}

/* What can't be read: a mount that needs it is refused, and a call that needs it, which is made again once it can be read. */
static void fail_reads(pansuyog_file *volume) {
    char bytes[64];
    for (bad = 0; bad < 2; bad++) {
        check(pansuyog_file_mount(volume) == PANSUYOG_DEVICE && pansuyog_file_errno(volume) == EIO);
        check(pansuyog_file_version(volume) == PANSUYOG_NOT_MOUNTED);
    }
    bad = -1;
    check(pansuyog_file_mount(volume) == 0);
    int32_t handle = pansuyog_file_open(volume, PATH("/log"));
    check(handle >= 0);
    is_unreadable = 1;
    check(pansuyog_file_pread(volume, (uint32_t)handle, 0, bytes, 64) == PANSUYOG_DEVICE && pansuyog_file_errno(volume) == EIO);
    is_unreadable = 0;
    check(pansuyog_file_pread(volume, (uint32_t)handle, 0, bytes, 64) == 64 && records_in(volume) > 0);
    pansuyog_file_abandon(volume);
}

/* Calls of the system that are interrupted or short are gone on with. */
static void disturb(pansuyog_file *volume, const char *image) {
    is_disturbed = 1;
    check(pansuyog_file_attach(volume, image, PANSUYOG_FILE_READ_WRITE, NULL) == 0 && pansuyog_file_mount(volume) == 0);
    uint32_t records = records_in(volume);
    for (int round = 0; round < 5; round++) check(append(volume, records + 4 * (uint32_t)round) == 0);
    check(pansuyog_file_unmount(volume) == 0 && pansuyog_file_mount(volume) == 0 && records_in(volume) == records + 20);
    check(pansuyog_file_errno(volume) == 0 && pansuyog_file_unmount(volume) == 0);
    is_disturbed = 0;
    check(interrupted > 100 && pansuyog_file_mount(volume) == 0 && records_in(volume) == records + 20);
    printf("%u calls of a file were interrupted, and the others were short\n", interrupted);
}

/* A file that was cut meanwhile: what is gone can't be read, and the system gives no number for that. */
static void cut(pansuyog_file *volume, const char *image) {
    char bytes[64];
    check(pansuyog_file_unmount(volume) == 0 && pansuyog_file_mount(volume) == 0);
    int32_t handle = pansuyog_file_open(volume, PATH("/log"));
    check(handle >= 0 && truncate(image, 2 * SECTOR) == 0);
    check(pansuyog_file_pread(volume, (uint32_t)handle, 0, bytes, 64) == PANSUYOG_DEVICE && pansuyog_file_errno(volume) == 0);
    check(pansuyog_file_unmount(volume) == 0 && pansuyog_file_mount(volume) == PANSUYOG_DEVICE);
}

int main(int argc, char **argv) {
    check(argc == 2);
    pansuyog_file volume;
    check((unlink(argv[1]) == 0 || errno == ENOENT) && pansuyog_file_new(&volume) == 0);
    check(pansuyog_file_make(&volume, argv[1], 64, 1, NULL) == 0);
    fail_each(&volume);
    fail_reads(&volume);
    disturb(&volume, argv[1]);
    cut(&volume, argv[1]);
    pansuyog_file_free(volume);
    return 0;
}
