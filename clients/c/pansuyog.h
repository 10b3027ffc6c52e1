/* A volume of Pansuyog for a program in C. The library reads and writes nothing by itself: the program reads a device and gives its
 * sectors, and carries out the writes and syncs that wait. pansuyog_fd.h does this for a file or a block device on a descriptor.
 *
 * In this order:
 *   1. Sync the device, read all of it, and give what was read: pansuyog_begin, pansuyog_give.
 *   2. Mount it: pansuyog_mount. Or make an empty volume, carry out its orders, and mount that: pansuyog_format.
 *   3. Make calls: pansuyog_create, pansuyog_pwrite and the others below.
 *   4. At any time between calls, carry out the orders that wait, from the least number on: pansuyog_carried, pansuyog_told,
 *      pansuyog_order or pansuyog_run. Then say that it was done: pansuyog_done.
 *
 * An order is a write of 512 bytes to a sector, or a sync. Each has a number: the first that the library gives since pansuyog_begin has
 * number 0. It keeps its number, and no other order gets it.
 *
 * The promise. Let the power go when the device has carried out the orders below any number. A mount of what it holds then finds a state
 * that the volume was in. Once all orders that wait behind a pansuyog_sync or pansuyog_fsync that answered 0 are carried out, every call
 * before it survives. So take that 0 as told to others only when its orders are carried out.
 *
 * What the device owes. After a sync it keeps all that was written before. A sector that was written since holds its old bytes or its new
 * ones, or can't be read, and no other sector changes. Between two syncs writes may be carried out in any order; of two to one sector
 * the last is enough.
 *
 * What the program owes, and nothing checks:
 *  - A pansuyog is begun by pansuyog_new. Its bytes are never copied or written, it goes to one call at a time, and never to a signal
 *    handler or to a child that was forked.
 *  - A pointer with a length points to that many bytes. It isn't null, also where the length is 0. Nobody else writes them during the
 *    call, and they overlap no other argument.
 *  - Nobody else writes to the device while the volume is mounted.
 *  - malloc, realloc and free are of one allocator, whose blocks are aligned to 16 bytes.
 *
 * Where a write or a sync of the device fails, call pansuyog_abandon, and begin anew with 1: the device holds what a loss of power may
 * leave. A write may be tried again before; a sync that failed may not.
 *
 * Memory. The library keeps the sectors, of 514 bytes each, the orders that wait, of 520 each, and 0.7 to 4.7 MB besides. Where memory
 * for an order is refused the volume is halted, as by a device that failed: unmount it, and begin anew. pansuyog_mount takes memory for
 * `room` orders before, besides those that wait; 1,100 are enough, where orders are carried out after each call, unless the cleaner
 * makes room on a large volume that is nearly full. Then more memory is asked for.
 *
 * So many orders come of one call of a mounted volume at most, also where it is refused, where the volume has N segments:
 *  - none of a call that only reads, nor of pansuyog_open and pansuyog_close;
 *  - 516 of pansuyog_sync and pansuyog_fsync, and of each other call but those that clean while N / 8 + 16 segments are clean, and three
 *    sixteenths of them too, which is so on 128 segments or more where no cleaning is due;
 *  - 8 * N + 520 of pansuyog_clean_once, and of each other call but pansuyog_clean while N / 8 + 16 segments are clean: it makes one pass of
 *    the cleaner at most then;
 *  - N / 8 * (8 * N + 4) + 516 of any other.
 * pansuyog_record_line makes several of these calls where a file begins or goes. */
#ifndef PANSUYOG_H
#define PANSUYOG_H

#include "pansuyog_types.h"

#ifdef __cplusplus
extern "C" {
#endif

typedef struct pansuyog {
    void *inside;
} pansuyog;

/* The volume */

/* A volume that holds nothing. NO_MEMORY, and then nothing is to be freed. */
int32_t pansuyog_new(pansuyog *volume);
/* All that it holds is gone: no volume is mounted, and no order waits. So too where the device failed. */
void pansuyog_abandon(pansuyog *volume);
/* Its memory is given back. It is gone with all that it holds. */
void pansuyog_free(pansuyog volume);

/* A device of so many sectors is being read: none is given yet, and one that isn't given counts as unreadable. What was held is gone.
 * NO_MEMORY. */
int32_t pansuyog_begin(pansuyog *volume, uint32_t sectors);
/* These sectors were read: length / 512 of them, from the first on. INVAL where one is past the end, with none given, and where no
 * device is being read. */
int32_t pansuyog_give(pansuyog *volume, uint32_t first, const void *bytes, size_t length);

/* Makes an empty volume of 64 to 1,024 segments, a multiple of 8, in version 1 or 2 of the layout. It takes 2 + 64 * segments sectors.
 * Memory for `room` orders is taken, besides those that wait. INVAL, TOO_SMALL, ALREADY_MOUNTED; NO_MEMORY, also where memory for an
 * order is refused. Where sectors were given and no memory is taken for `room` orders, they are gone. */
int32_t pansuyog_format(pansuyog *volume, uint32_t segments, uint32_t version, uint32_t room);
/* The same of any shape: pansuyog_shape_t has what each number may be, and pansuyog_shape_sectors how many sectors it takes. It answers as
 * pansuyog_format does, INVAL of a shape before TOO_SMALL before NO_MEMORY for an order. In version 3 a commit ends on a whole unit: where
 * the medium writes units of several sectors, make a volume whose unit is a multiple of theirs. The orders are of single sectors, whatever
 * the unit is. docs/LIBRARY.md has what is proved of either. */
int32_t pansuyog_format_with(pansuyog *volume, uint32_t segments, uint32_t version, uint32_t segment_sectors, uint32_t unit, uint32_t room);
/* How many sectors a volume of a shape takes: 2 + 64 * segments in versions 1 and 2, 256 + 64 * segments in version 3. 0 where there is no
 * volume of it. */
uint32_t pansuyog_shape_sectors(uint32_t segments, uint32_t version, uint32_t segment_sectors, uint32_t unit);
/* Mounts the volume that the sectors hold, with no open handles. It writes nothing. Memory is taken as by pansuyog_format. INVAL where no
 * sectors were given; NO_MEMORY, TOO_SMALL, NO_CHECKPOINT, DAMAGED, ALREADY_MOUNTED. */
int32_t pansuyog_mount(pansuyog *volume, uint32_t room);
/* Saves nothing: call pansuyog_sync before. Orders that wait stay. It can be mounted again without reading the device. NOT_MOUNTED. */
int32_t pansuyog_unmount(pansuyog *volume);

/* Orders */

/* How many were carried out: the number of the first that waits. */
uint64_t pansuyog_carried(pansuyog *volume);
/* How many there were: the number that the next will have. */
uint64_t pansuyog_told(pansuyog *volume);
/* The order of this number: 1 for a write, with its sector and its 512 bytes; 0 for a sync. NO_ORDER where none of this number waits;
 * INVAL where length is below 512 for a write. */
int32_t pansuyog_order(pansuyog *volume, uint64_t number, uint32_t *sector, void *bytes, size_t length);
/* How many orders from this number on are writes to sectors that follow one another, at most `count`, with the first sector and their
 * bytes, 512 for each; 0 for a sync. NO_ORDER; INVAL where count is 0 for a write. */
int32_t pansuyog_run(pansuyog *volume, uint64_t number, uint32_t *first, void *sectors, size_t count);
/* All orders that waited were carried out. NOT_MOUNTED where there is no device. */
int32_t pansuyog_done(pansuyog *volume);

/* Calls. A path has a length, and no zero byte at its end. docs/CALLS.md has each call with its refusals in their order. Each answers
 * NOT_MOUNTED where no volume is mounted. */

/* A handle, 0 to 63. */
int32_t pansuyog_open(pansuyog *volume, const char *path, size_t length);
int32_t pansuyog_create(pansuyog *volume, const char *path, size_t length);
int32_t pansuyog_close(pansuyog *volume, uint32_t handle);
/* How many bytes were read: fewer than length where the file ends, none past it. INVAL where length is above 65,536. */
int32_t pansuyog_pread(pansuyog *volume, uint32_t handle, uint64_t offset, void *bytes, size_t length);
/* All bytes or none: their number. INVAL above 65,536. */
int32_t pansuyog_pwrite(pansuyog *volume, uint32_t handle, uint64_t offset, const void *bytes, size_t length);
int32_t pansuyog_truncate(pansuyog *volume, uint32_t handle, uint64_t size);

int32_t pansuyog_mkdir(pansuyog *volume, const char *path, size_t length);
int32_t pansuyog_rmdir(pansuyog *volume, const char *path, size_t length);
int32_t pansuyog_unlink(pansuyog *volume, const char *path, size_t length);
int32_t pansuyog_link(pansuyog *volume, const char *from, size_t from_length, const char *to, size_t to_length);
int32_t pansuyog_rename(pansuyog *volume, const char *from, size_t from_length, const char *to, size_t to_length);
int32_t pansuyog_symlink(pansuyog *volume, const char *text, size_t text_length, const char *path, size_t length);
/* The length of the text, of which as much is put into memory as there is room for. */
int32_t pansuyog_readlink(pansuyog *volume, const char *path, size_t length, void *text, size_t room);

int32_t pansuyog_stat(pansuyog *volume, const char *path, size_t length, pansuyog_stat_t *stat);
int32_t pansuyog_lstat(pansuyog *volume, const char *path, size_t length, pansuyog_stat_t *stat);
/* How many names a directory has, without dot and dot-dot. They are kept until the next directory is listed. */
int32_t pansuyog_list(pansuyog *volume, const char *path, size_t length);
/* The name at this place of those that were listed last, 0 for the first: its length, 1 to 123, of which as much is put into memory as
 * there is room for. 0 where there is none. They are ordered by their bytes. */
int32_t pansuyog_entry(pansuyog *volume, size_t place, pansuyog_entry_t *entry, void *name, size_t room);

/* After 0, and once the orders that wait are carried out, every call before this one survives a loss of power. */
int32_t pansuyog_fsync(pansuyog *volume, uint32_t handle);
int32_t pansuyog_sync(pansuyog *volume);
/* Cleans segments until a quarter of them is clean. What isn't saved is saved before. */
int32_t pansuyog_clean(pansuyog *volume);
/* 1 where fewer than a quarter of the segments is clean, so that the two calls that clean have something to do; else 0. */
int32_t pansuyog_is_cleaning_due(pansuyog *volume);
/* One pass of the cleaner where that is so, and nothing else. What isn't saved is saved before. A program that calls it in its idle
 * moments waits seldom for the cleaner in another call. */
int32_t pansuyog_clean_once(pansuyog *volume);
int32_t pansuyog_space(pansuyog *volume, pansuyog_space_t *space);
/* What the volume was made with, and the version that it has now. HALTED. */
int32_t pansuyog_shape(pansuyog *volume, pansuyog_shape_t *shape);
/* 1 to 3. */
int32_t pansuyog_version(pansuyog *volume);
int32_t pansuyog_upgrade(pansuyog *volume);
int32_t pansuyog_widen(pansuyog *volume, const char *path, size_t length);

/* A recorder writes lines to numbered files of the root, as 00000001-2026-11-29, of which the oldest goes where there is no space.
 * docs/LIBRARY.md has its rules. A mount, an unmount and pansuyog_abandon end it, and a recorder that begins ends the one before. */

/* Begins to record, and goes on in the newest file where it may: the next file begins behind `bytes` bytes, and with each day. At most
 * `files` are kept, or for 0 as many as there is space for. What readdir, lstat, open, pread and close refuse; then no recorder is there. */
int32_t pansuyog_record_begin(pansuyog *volume, uint32_t bytes, uint32_t files);
/* Writes a line and a newline, all or nothing. `day` has ten bytes, as 2026-11-29, and `length` is at most 65,535. INVAL for another day,
 * for a line with a newline, and where no recorder has begun; WORN behind number 99,999,999; what create, pwrite, readdir, unlink and close
 * refuse. */
int32_t pansuyog_record_line(pansuyog *volume, const char *day, const char *line, size_t length);
/* After 0, and once the orders that wait are carried out, every line before survives a loss of power. INVAL where no recorder has begun. */
int32_t pansuyog_record_save(pansuyog *volume);

#ifdef __cplusplus
}
#endif
#endif
