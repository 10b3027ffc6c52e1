/* A volume of Pansuyog in a file or on a block device, for a program in C. A call reads and writes the file by itself, and is done once it
 * returns. pansuyog.h is of the other library, for devices of a program's own. One program may link both.
 *
 * In this order:
 *   1. pansuyog_file_new.
 *   2. Open the file of a volume: pansuyog_file_attach. Or make one where no file is: pansuyog_file_make.
 *   3. Mount it: pansuyog_file_mount.
 *   4. Make calls: pansuyog_file_create, pansuyog_file_pwrite and the others below.
 *   5. pansuyog_file_free. It saves nothing: call pansuyog_file_sync before.
 *
 * The promise. Once a pansuyog_file_sync or pansuyog_file_fsync has answered 0 every call before it survives a loss of power and a kill. At
 * each other moment either leaves a state that the volume was in.
 *
 * What the file owes. After a sync it keeps all that was written before. A sector that was written since holds its old bytes or its new
 * ones, or can't be read, and no other sector changes.
 *
 * What the program owes, and nothing checks:
 *  - A pansuyog_file is begun by pansuyog_file_new. Its bytes are never copied or written, it goes to one call at a time, and never to a
 *    signal handler or to a child that was forked.
 *  - A pointer with a length points to that many bytes. It isn't null, also where the length is 0. Nobody else writes them during the
 *    call, and they overlap no other argument.
 *  - A descriptor that was given is used by nobody else any more, nor is it closed: see pansuyog_file_take.
 *  - Nobody else writes to the file while the volume is mounted. Its lock keeps out those who take it.
 *  - malloc, realloc and free are of one allocator, whose blocks are aligned to 16 bytes.
 *
 * Where a write or a sync of the file fails the call answers HALTED, and so does each later one. pansuyog_file_abandon, and attach it anew:
 * the file holds what a loss of power may leave. Where a kernel's cache lies between, restart the machine before. pansuyog_file_unmount
 * keeps the writes that were refused, and a mount behind it tries them once more: it answers DEVICE where they are refused again.
 *
 * Memory. A volume takes 0.7 to 4.7 MB, however large its file is. A call that needs memory which is refused answers NO_MEMORY, and changes
 * nothing. */
#ifndef PANSUYOG_FILE_H
#define PANSUYOG_FILE_H

#include "pansuyog_posix.h"
#include <stdlib.h>

#ifdef __cplusplus
extern "C" {
#endif

typedef struct pansuyog_file {
    void *inside;
} pansuyog_file;

/* How a file is had. */
enum pansuyog_file_flags {
    PANSUYOG_FILE_READ_WRITE = 0,
    PANSUYOG_FILE_READ_ONLY = 1 /* calls that may write answer READ_ONLY; others may read it at once, and nobody may write it */
};

/* The volume */

/* A volume that holds nothing. NO_MEMORY, and then nothing is to be freed. */
int32_t pansuyog_file_new(pansuyog_file *volume);
/* Takes a descriptor, which lies in a block of malloc, as the file of a volume, where none is mounted: one of a file or a block device, to
 * be read, and to be written but for READ_ONLY. It is locked as the program lfs does, and what was held before is closed. Block and
 * descriptor are the library's from then on, also where they are refused: then the descriptor is closed, and nothing else changes.
 * ALREADY_MOUNTED, IN_USE, LOCK_FAILED, DEVICE, NO_MEMORY, INVAL for other flags. pansuyog_file_attach opens a file and gives it. */
int32_t pansuyog_file_take(pansuyog_file *volume, int32_t *descriptor, uint32_t flags);
/* The number of errno.h for which the newest call of the file that failed was refused, or 0. */
int32_t pansuyog_file_errno(pansuyog_file *volume);
/* Nothing is mounted, and the file is closed. What wasn't saved is gone. */
void pansuyog_file_abandon(pansuyog_file *volume);
/* The same, and its memory is given back. */
void pansuyog_file_free(pansuyog_file volume);

/* Makes an empty volume of 64 to 1,024 segments, a multiple of 8, in version 1 or 2 of the layout, in the file that was taken: what it
 * held is gone. It takes 2 + 64 * segments sectors of 512 bytes, which are there already. INVAL, also where no file was taken; TOO_SMALL,
 * DEVICE, READ_ONLY, ALREADY_MOUNTED. */
int32_t pansuyog_file_format(pansuyog_file *volume, uint32_t segments, uint32_t version);
/* The same of any shape: pansuyog_shape_t has what each number may be, and pansuyog_file_shape_sectors how many sectors it takes. It
 * answers as pansuyog_file_format does, INVAL of a shape before TOO_SMALL before DEVICE. In version 3 a commit ends on a whole unit: where
 * the medium writes units of several sectors, make a volume whose unit is a multiple of theirs. docs/LIBRARY.md has what is proved then. */
int32_t pansuyog_file_format_with(pansuyog_file *volume, uint32_t segments, uint32_t version, uint32_t segment_sectors, uint32_t unit);
/* How many sectors a volume of a shape takes: 2 + 64 * segments in versions 1 and 2, 256 + 64 * segments in version 3. 0 where there is no
 * volume of it. */
uint32_t pansuyog_file_shape_sectors(uint32_t segments, uint32_t version, uint32_t segment_sectors, uint32_t unit);
/* Mounts the volume of the file that was taken, with no open handles. It syncs the file once, and writes nothing. INVAL where no file was
 * taken; NO_MEMORY, DEVICE, TOO_SMALL, NO_CHECKPOINT, DAMAGED, ALREADY_MOUNTED. The file stays taken where it is refused. */
int32_t pansuyog_file_mount(pansuyog_file *volume);
/* Saves nothing: call pansuyog_file_sync before. The file stays taken, and can be mounted again. NOT_MOUNTED. */
int32_t pansuyog_file_unmount(pansuyog_file *volume);

/* Calls. A path has a length, and no zero byte at its end. docs/CALLS.md has each call with its refusals in their order. Each answers
 * NOT_MOUNTED where no volume is mounted, and READ_ONLY where it may write and the volume is only read. */

/* A handle, 0 to 63. */
int32_t pansuyog_file_open(pansuyog_file *volume, const char *path, size_t length);
int32_t pansuyog_file_create(pansuyog_file *volume, const char *path, size_t length);
int32_t pansuyog_file_close(pansuyog_file *volume, uint32_t handle);
/* How many bytes were read: fewer than length where the file ends, none past it. INVAL where length is above 65,536. */
int32_t pansuyog_file_pread(pansuyog_file *volume, uint32_t handle, uint64_t offset, void *bytes, size_t length);
/* All bytes or none: their number. INVAL above 65,536. */
int32_t pansuyog_file_pwrite(pansuyog_file *volume, uint32_t handle, uint64_t offset, const void *bytes, size_t length);
int32_t pansuyog_file_truncate(pansuyog_file *volume, uint32_t handle, uint64_t size);

int32_t pansuyog_file_mkdir(pansuyog_file *volume, const char *path, size_t length);
int32_t pansuyog_file_rmdir(pansuyog_file *volume, const char *path, size_t length);
int32_t pansuyog_file_unlink(pansuyog_file *volume, const char *path, size_t length);
int32_t pansuyog_file_link(pansuyog_file *volume, const char *from, size_t from_length, const char *to, size_t to_length);
int32_t pansuyog_file_rename(pansuyog_file *volume, const char *from, size_t from_length, const char *to, size_t to_length);
int32_t pansuyog_file_symlink(pansuyog_file *volume, const char *text, size_t text_length, const char *path, size_t length);
/* The length of the text, of which as much is put into memory as there is room for. */
int32_t pansuyog_file_readlink(pansuyog_file *volume, const char *path, size_t length, void *text, size_t room);

int32_t pansuyog_file_stat(pansuyog_file *volume, const char *path, size_t length, pansuyog_stat_t *stat);
int32_t pansuyog_file_lstat(pansuyog_file *volume, const char *path, size_t length, pansuyog_stat_t *stat);
/* How many names a directory has, without dot and dot-dot. They are kept until the next directory is listed. */
int32_t pansuyog_file_list(pansuyog_file *volume, const char *path, size_t length);
/* The name at this place of those that were listed last, 0 for the first: its length, 1 to 123, of which as much is put into memory as
 * there is room for. 0 where there is none. They are ordered by their bytes. */
int32_t pansuyog_file_entry(pansuyog_file *volume, size_t place, pansuyog_entry_t *entry, void *name, size_t room);

/* After 0 every call before this one survives a loss of power. */
int32_t pansuyog_file_fsync(pansuyog_file *volume, uint32_t handle);
int32_t pansuyog_file_sync(pansuyog_file *volume);
/* Cleans segments until a quarter of them is clean. What isn't saved is saved before. */
int32_t pansuyog_file_clean(pansuyog_file *volume);
/* 1 where fewer than a quarter of the segments is clean, so that the two calls that clean have something to do; else 0. */
int32_t pansuyog_file_is_cleaning_due(pansuyog_file *volume);
/* One pass of the cleaner where that is so, and nothing else. What isn't saved is saved before. A program that calls it in its idle
 * moments waits seldom for the cleaner in another call. */
int32_t pansuyog_file_clean_once(pansuyog_file *volume);
int32_t pansuyog_file_space(pansuyog_file *volume, pansuyog_space_t *space);
/* What the volume was made with, and the version that it has now. HALTED. */
int32_t pansuyog_file_shape(pansuyog_file *volume, pansuyog_shape_t *shape);
/* 1 to 3. */
int32_t pansuyog_file_version(pansuyog_file *volume);
int32_t pansuyog_file_upgrade(pansuyog_file *volume);
int32_t pansuyog_file_widen(pansuyog_file *volume, const char *path, size_t length);

/* A recorder writes lines to numbered files of the root, as 00000001-2026-11-29, of which the oldest goes where there is no space.
 * docs/LIBRARY.md has its rules. A mount, an unmount and pansuyog_file_abandon end it, and a recorder that begins ends the one before. */

/* Begins to record, and goes on in the newest file where it may: the next file begins behind `bytes` bytes, and with each day. At most
 * `files` are kept, or for 0 as many as there is space for. What readdir, lstat, open, pread and close refuse; then no recorder is there. */
int32_t pansuyog_file_record_begin(pansuyog_file *volume, uint32_t bytes, uint32_t files);
/* Writes a line and a newline, all or nothing. `day` has ten bytes, as 2026-11-29, and `length` is at most 65,535. INVAL for another day,
 * for a line with a newline, and where no recorder has begun; WORN behind number 99,999,999; what create, pwrite, readdir, unlink and close
 * refuse. */
int32_t pansuyog_file_record_line(pansuyog_file *volume, const char *day, const char *line, size_t length);
/* After 0 every line before survives a loss of power. INVAL where no recorder has begun. */
int32_t pansuyog_file_record_save(pansuyog_file *volume);

#ifdef __cplusplus
}
#endif

/* Opening and making. These are C, and stand here. */

/* Gives a descriptor to pansuyog_file_take, in a block of its own. It is closed where it is refused. NO_MEMORY also for that block. */
static inline int32_t pansuyog_file_lend(pansuyog_file *volume, int fd, uint32_t flags) {
    int32_t *descriptor = (int32_t *)malloc(sizeof *descriptor);
    if (descriptor != NULL) {
        *descriptor = fd;
        return pansuyog_file_take(volume, descriptor, flags);
    }
    close(fd);
    return PANSUYOG_NO_MEMORY;
}

/* Opens a file or a block device that is there, and takes it as the file of a volume, where none is mounted. It is locked: to write it
 * against all others, which is tried for a second, and to read it against those who write. DEVICE, IN_USE, LOCK_FAILED, NO_MEMORY,
 * ALREADY_MOUNTED, INVAL; then nothing changes. `failed`, which may be null, tells what the system refused. */
static inline int32_t pansuyog_file_attach(pansuyog_file *volume, const char *path, uint32_t flags, pansuyog_failed_t *failed) {
    pansuyog_failed_t own;
    if (failed == NULL) failed = &own;
    pansuyog_clear(failed);
    if (flags > PANSUYOG_FILE_READ_ONLY) return PANSUYOG_INVAL;
    if (pansuyog_file_version(volume) != PANSUYOG_NOT_MOUNTED) return PANSUYOG_ALREADY_MOUNTED;
    int32_t fd = pansuyog_open_fd(path, flags == PANSUYOG_FILE_READ_ONLY ? LOCK_SH : LOCK_EX, failed);
    if (fd >= 0) return pansuyog_file_lend(volume, fd, flags);
    return failed->call == PANSUYOG_AT_LOCK ? PANSUYOG_IN_USE : fd;
}

/* Makes an empty volume in the file of a descriptor, which is taken by a copy of that. */
static inline int32_t pansuyog_file_fill_made(pansuyog_file *volume, int fd, uint32_t segments, uint32_t version,
                                              uint32_t segment_sectors, uint32_t unit, pansuyog_failed_t *failed) {
    int own = fcntl(fd, F_DUPFD_CLOEXEC, STDERR_FILENO + 1);
    if (own < 0) return pansuyog_fail(failed, PANSUYOG_AT_OPEN, 0);
    int32_t code = pansuyog_file_lend(volume, own, PANSUYOG_FILE_READ_WRITE);
    if (code == PANSUYOG_OK) code = pansuyog_file_format_with(volume, segments, version, segment_sectors, unit);
    errno = pansuyog_file_errno(volume);
    return code == PANSUYOG_DEVICE && errno ? pansuyog_fail(failed, PANSUYOG_AT_CHANGE, 0) : code;
}

/* Makes an empty volume of a shape in a file that isn't there yet, and takes it as the file of a volume, where none is mounted: then it is
 * to be mounted. EXIST where something has its name, be it a link that leads nowhere: that
 * stays as it is. INVAL, NO_MEMORY, DEVICE, IN_USE, LOCK_FAILED, ALREADY_MOUNTED. Where it fails the volume may hold nothing.
 *
 * Until the volume is whole and synced its file has another name, with .lfs-make at its end, which is locked. So a stop leaves no half of
 * a volume, and the next pansuyog_file_make begins that file anew. On a file system without links a stop may leave an empty file beside
 * it. */
static inline int32_t pansuyog_file_make_with(pansuyog_file *volume, const char *path, uint32_t segments, uint32_t version,
                                              uint32_t segment_sectors, uint32_t unit, pansuyog_failed_t *failed) {
    char made[PATH_MAX];
    pansuyog_failed_t own;
    if (failed == NULL) failed = &own;
    pansuyog_clear(failed);
    if (pansuyog_file_version(volume) != PANSUYOG_NOT_MOUNTED) return PANSUYOG_ALREADY_MOUNTED;
    uint32_t sectors = pansuyog_file_shape_sectors(segments, version, segment_sectors, unit);
    int32_t fd = pansuyog_begin_made(path, made, sectors, failed), code = fd;
    if (fd >= 0) {
        code = pansuyog_file_fill_made(volume, fd, segments, version, segment_sectors, unit, failed);
        code = pansuyog_end_made(path, made, fd, code, failed);
        if (code != PANSUYOG_OK) pansuyog_file_abandon(volume);
    }
    return failed->call == PANSUYOG_AT_LOCK ? PANSUYOG_IN_USE : code;
}

/* The same in version 1 or 2 of the layout, with units of a sector. INVAL for version 3. */
static inline int32_t pansuyog_file_make(pansuyog_file *volume, const char *path, uint32_t segments, uint32_t version,
                                         pansuyog_failed_t *failed) {
    return pansuyog_file_make_with(volume, path, segments, version, version < 3 ? PANSUYOG_SEGMENT_SECTORS : 0, 1, failed);
}

/* Says on standard error, in a line that begins with the image's name, why a call answered this code: `failed` has what the calls above
 * told, and may be null, and the volume what its file refused. */
static inline void pansuyog_file_perror(const char *image, int32_t code, pansuyog_file *volume, const pansuyog_failed_t *failed) {
    int32_t error = pansuyog_file_errno(volume);
    if ((failed != NULL && failed->call != PANSUYOG_NO_CALL) || error == 0)
        pansuyog_perror(image, code, failed);
    else if (code == PANSUYOG_HALTED)
        fprintf(stderr, "%s: a write or a sync failed: %s\n", image, strerror(error));
    else if (code == PANSUYOG_DEVICE)
        fprintf(stderr, "%s: %s: %s\n", image, pansuyog_text(code), strerror(error));
    else
        pansuyog_perror(image, code, failed);
}

#endif
