/* A volume in a file or on a block device: opens and locks it, reads it, and carries out its orders by pwrite and fsync. And makes one in
 * a new file. This is C of POSIX.1-2008: with -std=c11 define _POSIX_C_SOURCE as 200809L before the first header. */
#ifndef PANSUYOG_FD_H
#define PANSUYOG_FD_H

#include "pansuyog.h"
#include "pansuyog_posix.h"

enum {
    PANSUYOG_RUN = 128,              /* sectors of one read or write */
    PANSUYOG_MOST_SECTORS = 65792    /* of 1,024 segments in version 3; what a larger device has behind them isn't read */
};

/* Reading and writing */

/* Writes all bytes: 0, or -1. */
static inline int pansuyog_write_all(int fd, const unsigned char *bytes, size_t left, off_t offset) {
    while (left) {
        ssize_t n = pwrite(fd, bytes, left, offset);
        if (n < 0 && errno == EINTR) continue;
        if (n == 0) errno = EIO;
        if (n <= 0) return -1;
        bytes += n;
        left -= (size_t)n;
        offset += n;
    }
    return 0;
}

/* Reads so many bytes: how many, which are fewer where the file ends or can't be read further. */
static inline size_t pansuyog_read_most(int fd, unsigned char *bytes, size_t most, off_t offset) {
    size_t count = 0;
    while (count < most) {
        ssize_t n = pread(fd, bytes + count, most - count, offset + (off_t)count);
        if (n < 0 && errno == EINTR) continue;
        if (n == 0) errno = EIO;
        if (n <= 0) break;
        count += (size_t)n;
    }
    return count;
}

/* Carries out all orders that wait, writes to sectors that follow one another by one pwrite: 0, or DEVICE, and then the volume is
 * abandoned. */
static inline int32_t pansuyog_carry(pansuyog *volume, int fd, pansuyog_failed_t *failed) {
    unsigned char run[PANSUYOG_RUN * PANSUYOG_SECTOR];
    uint64_t number = pansuyog_carried(volume), told = pansuyog_told(volume);
    pansuyog_clear(failed);
    if (number == told) return PANSUYOG_OK;
    while (number < told) {
        uint32_t first = 0;
        int32_t count = pansuyog_run(volume, number, &first, run, PANSUYOG_RUN);
        if (count < 0) return count;
        if (count == 0 ? pansuyog_sync_all(fd)
                       : pansuyog_write_all(fd, run, (size_t)count * PANSUYOG_SECTOR, (off_t)first * PANSUYOG_SECTOR)) {
            int32_t code = pansuyog_fail(failed, count == 0 ? PANSUYOG_AT_SYNC : PANSUYOG_AT_WRITE, first);
            pansuyog_abandon(volume);
            return code;
        }
        number += count == 0 ? 1 : (uint64_t)count;
    }
    return pansuyog_done(volume);
}

/* Gives the sectors of a descriptor, which is synced before. One that can't be read isn't given, and `failed` tells of the first such.
 * NO_MEMORY, DEVICE. */
static inline int32_t pansuyog_read_fd(pansuyog *volume, int fd, pansuyog_failed_t *failed) {
    unsigned char run[PANSUYOG_RUN * PANSUYOG_SECTOR];
    off_t size = lseek(fd, 0, SEEK_END);
    pansuyog_clear(failed);
    if (size < 0) return pansuyog_fail(failed, PANSUYOG_AT_READ, 0);
    if (pansuyog_sync_all(fd)) return pansuyog_fail(failed, PANSUYOG_AT_SYNC, 0);
    off_t most = (off_t)PANSUYOG_MOST_SECTORS * PANSUYOG_SECTOR;
    uint32_t sectors = (uint32_t)((size > most ? most : size) / PANSUYOG_SECTOR);
    int32_t code = pansuyog_begin(volume, sectors);
    for (uint32_t sector = 0; code == PANSUYOG_OK && sector < sectors;) {
        size_t want = sectors - sector < PANSUYOG_RUN ? sectors - sector : (size_t)PANSUYOG_RUN;
        off_t offset = (off_t)sector * PANSUYOG_SECTOR;
        size_t count = pansuyog_read_most(fd, run, want * PANSUYOG_SECTOR, offset) / PANSUYOG_SECTOR;
        /* Where a run can't be read its first sector is tried alone. */
        if (count == 0) count = pansuyog_read_most(fd, run, PANSUYOG_SECTOR, offset) / PANSUYOG_SECTOR;
        if (count > 0) code = pansuyog_give(volume, sector, run, count * PANSUYOG_SECTOR);
        else if (failed != NULL && failed->call == PANSUYOG_NO_CALL) pansuyog_fail(failed, PANSUYOG_AT_READ, sector);
        sector += count > 0 ? (uint32_t)count : 1;
    }
    return code;
}

static inline int32_t pansuyog_mount_fd(pansuyog *volume, int fd, uint32_t room, pansuyog_failed_t *failed) {
    int32_t code = pansuyog_read_fd(volume, fd, failed);
    if (code == PANSUYOG_OK) code = pansuyog_mount(volume, room);
    return code == PANSUYOG_OK ? pansuyog_carry(volume, fd, failed) : code;
}

/* What the descriptor held is gone. */
static inline int32_t pansuyog_format_fd(pansuyog *volume, int fd, uint32_t segments, uint32_t version, uint32_t room,
                                         pansuyog_failed_t *failed) {
    int32_t code = pansuyog_read_fd(volume, fd, failed);
    if (code == PANSUYOG_OK) code = pansuyog_format(volume, segments, version, room);
    return code == PANSUYOG_OK ? pansuyog_carry(volume, fd, failed) : code;
}

/* The same of any shape: see pansuyog_format_with. */
static inline int32_t pansuyog_format_with_fd(pansuyog *volume, int fd, uint32_t segments, uint32_t version, uint32_t segment_sectors,
                                              uint32_t unit, uint32_t room, pansuyog_failed_t *failed) {
    int32_t code = pansuyog_read_fd(volume, fd, failed);
    if (code == PANSUYOG_OK) code = pansuyog_format_with(volume, segments, version, segment_sectors, unit, room);
    return code == PANSUYOG_OK ? pansuyog_carry(volume, fd, failed) : code;
}

/* Saves: after 0 every call before this one survives a loss of power. */
static inline int32_t pansuyog_save_fd(pansuyog *volume, int fd, pansuyog_failed_t *failed) {
    pansuyog_clear(failed);
    int32_t code = pansuyog_sync(volume);
    return code == PANSUYOG_OK ? pansuyog_carry(volume, fd, failed) : code;
}

/* Making */

/* Makes a volume in an open file. */
static inline int32_t pansuyog_fill_made(int fd, uint32_t segments, uint32_t version, uint32_t segment_sectors, uint32_t unit,
                                         pansuyog_failed_t *failed) {
    pansuyog volume;
    int32_t code = pansuyog_new(&volume);
    if (code != PANSUYOG_OK) return code;
    code = pansuyog_format_with_fd(&volume, fd, segments, version, segment_sectors, unit, 0, failed);
    pansuyog_free(volume);
    return code;
}

/* Makes an empty volume of a shape in a file that isn't there yet. EXIST where something has its name, be it a link that leads nowhere:
 * that stays as it is. INVAL, NO_MEMORY, DEVICE.
 *
 * Until the volume is whole and synced its file has another name, with .lfs-make at its end, which is locked. So a stop leaves no half of
 * a volume, and the next pansuyog_make begins that file anew. On a file system without links a stop may leave an empty file beside it. */
static inline int32_t pansuyog_make_with(const char *path, uint32_t segments, uint32_t version, uint32_t segment_sectors, uint32_t unit,
                                         pansuyog_failed_t *failed) {
    char made[PATH_MAX];
    int32_t fd = pansuyog_begin_made(path, made, pansuyog_shape_sectors(segments, version, segment_sectors, unit), failed);
    if (fd < 0) return fd;
    return pansuyog_end_made(path, made, fd, pansuyog_fill_made(fd, segments, version, segment_sectors, unit, failed), failed);
}

/* The same in version 1 or 2 of the layout, with units of a sector. INVAL for version 3. */
static inline int32_t pansuyog_make(const char *path, uint32_t segments, uint32_t version, pansuyog_failed_t *failed) {
    return pansuyog_make_with(path, segments, version, version < 3 ? PANSUYOG_SEGMENT_SECTORS : 0, 1, failed);
}

#endif
