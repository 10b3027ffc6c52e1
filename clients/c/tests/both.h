/* What both libraries have in common, each call with its answers. */
#ifndef BOTH_H
#define BOTH_H

#include "library.h"

/* Every call of a volume where none is mounted. */
static void unmounted(volume_t *v) {
    char bytes[8] = {0};
    pansuyog_stat_t stat = {0};
    pansuyog_space_t space = {0};
    pansuyog_shape_t shape = {0};
    const int32_t none = PANSUYOG_NOT_MOUNTED;
    check(CALL(open)(v, PATH("/a")) == none && CALL(create)(v, PATH("/a")) == none && CALL(close)(v, 0) == none);
    check(CALL(pread)(v, 0, 0, bytes, 8) == none && CALL(pwrite)(v, 0, 0, bytes, 8) == none && CALL(truncate)(v, 0, 0) == none);
    check(CALL(mkdir)(v, PATH("/a")) == none && CALL(rmdir)(v, PATH("/a")) == none && CALL(unlink)(v, PATH("/a")) == none);
    check(CALL(link)(v, PATH("/a"), PATH("/b")) == none && CALL(rename)(v, PATH("/a"), PATH("/b")) == none);
    check(CALL(symlink)(v, PATH("/a"), PATH("/b")) == none && CALL(readlink)(v, PATH("/a"), bytes, 8) == none);
    check(CALL(stat)(v, PATH("/a"), &stat) == none && CALL(lstat)(v, PATH("/a"), &stat) == none);
    check(CALL(list)(v, PATH("/")) == none && CALL(fsync)(v, 0) == none && CALL(sync)(v) == none && CALL(clean)(v) == none);
    check(CALL(is_cleaning_due)(v) == none && CALL(clean_once)(v) == none);
    check(CALL(space)(v, &space) == none && CALL(version)(v) == none && CALL(upgrade)(v) == none);
    check(CALL(shape)(v, &shape) == none && shape.segments == 0 && shape.unit == 0);
    check(CALL(widen)(v, PATH("/")) == none);
    check(CALL(record_begin)(v, 10, 2) == none && CALL(record_line)(v, "2026-01-01", "a", 1) == none && CALL(record_save)(v) == none);
    check(CALL(unmount)(v) == none);
    for (size_t at = 0; at < sizeof bytes; at++) check(bytes[at] == 0);
    check(stat.number == 0 && space.limit == 0);
}

static void files(volume_t *v) {
    static char bytes[65537];
    check(CALL(create)(v, PATH("/a")) == 0 && CALL(create)(v, PATH("/a")) == PANSUYOG_EXIST);
    check(CALL(create)(v, PATH("")) == PANSUYOG_NO_ENTRY);
    check(CALL(open)(v, PATH("/none")) == PANSUYOG_NO_ENTRY && CALL(open)(v, PATH("/")) == PANSUYOG_IS_DIR);
    check(CALL(open)(v, "/a\0", 3) == PANSUYOG_INVAL);
    memset(bytes, 'a', sizeof bytes);
    check(CALL(open)(v, bytes, 1023) == PANSUYOG_NAME_TOO_LONG && CALL(open)(v, bytes, sizeof bytes) == PANSUYOG_NAME_TOO_LONG);
    check(CALL(pwrite)(v, 0, 10, "hello", 5) == 5 && CALL(pwrite)(v, 1, 0, "x", 1) == PANSUYOG_BAD_HANDLE);
    check(CALL(pwrite)(v, UINT32_MAX, 0, "x", 1) == PANSUYOG_BAD_HANDLE);
    check(CALL(pwrite)(v, 0, 0, bytes, 0) == 0 && CALL(pwrite)(v, 0, 0, bytes, 65537) == PANSUYOG_INVAL);
    check(CALL(pwrite)(v, 0, UINT64_MAX, "x", 1) == PANSUYOG_FILE_TOO_BIG);
    check(CALL(pwrite)(v, 0, 8511488, "x", 1) == PANSUYOG_FILE_TOO_BIG);
    memset(bytes, 'z', sizeof bytes);
    check(CALL(pread)(v, 0, 8, bytes, 64) == 7 && !memcmp(bytes, "\0\0hellozz", 9));
    check(CALL(pread)(v, 0, 10, bytes, 2) == 2 && !memcmp(bytes, "heh", 2) && CALL(pread)(v, 0, 0, bytes, 0) == 0);
    check(CALL(pread)(v, 0, 15, bytes, 8) == 0 && CALL(pread)(v, 0, UINT64_MAX, bytes, 8) == 0);
    check(CALL(pread)(v, 0, 0, bytes, 65537) == PANSUYOG_INVAL && CALL(pread)(v, 0, 0, bytes, 65536) == 15);
    check(CALL(pread)(v, 64, 0, bytes, 8) == PANSUYOG_BAD_HANDLE);
    check(CALL(truncate)(v, 0, 12) == 0 && CALL(pread)(v, 0, 10, bytes, 8) == 2);
    check(CALL(truncate)(v, 0, UINT64_MAX) == PANSUYOG_FILE_TOO_BIG && CALL(truncate)(v, 9, 0) == PANSUYOG_BAD_HANDLE);
    for (uint32_t handle = 1; handle < 64; handle++) check(CALL(open)(v, PATH("/a")) == (int32_t)handle);
    check(CALL(open)(v, PATH("/a")) == PANSUYOG_TOO_MANY_OPEN && CALL(create)(v, PATH("/b")) == PANSUYOG_TOO_MANY_OPEN);
    for (uint32_t handle = 1; handle < 64; handle++) check(CALL(close)(v, handle) == 0);
    check(CALL(close)(v, 1) == PANSUYOG_BAD_HANDLE && CALL(close)(v, UINT32_MAX) == PANSUYOG_BAD_HANDLE);
}

static void names(volume_t *v) {
    char text[8];
    memset(text, 'z', sizeof text);
    check(CALL(mkdir)(v, PATH("/d")) == 0 && CALL(mkdir)(v, PATH("/d")) == PANSUYOG_EXIST);
    check(CALL(mkdir)(v, PATH("/a/x")) == PANSUYOG_NOT_DIR && CALL(mkdir)(v, PATH("/")) == PANSUYOG_EXIST);
    check(CALL(link)(v, PATH("/a"), PATH("/d/a")) == 0 && CALL(link)(v, PATH("/d"), PATH("/e")) == PANSUYOG_PERM);
    check(CALL(link)(v, PATH("/a"), PATH("/d/a")) == PANSUYOG_EXIST);
    check(CALL(rmdir)(v, PATH("/d")) == PANSUYOG_NOT_EMPTY && CALL(rmdir)(v, PATH("/")) == PANSUYOG_BUSY);
    check(CALL(unlink)(v, PATH("/d")) == PANSUYOG_PERM);
    check(CALL(rename)(v, PATH("/d/a"), PATH("/d/b")) == 0 && CALL(rename)(v, PATH("/d"), PATH("/d/e")) == PANSUYOG_INVAL);
    check(CALL(rename)(v, PATH("/none"), PATH("/e")) == PANSUYOG_NO_ENTRY);
    check(CALL(symlink)(v, PATH("/d/b"), PATH("/l")) == 0 && CALL(symlink)(v, PATH(""), PATH("/m")) == PANSUYOG_NO_ENTRY);
    check(CALL(readlink)(v, PATH("/l"), text, 2) == 4 && !memcmp(text, "/dz", 3) && CALL(readlink)(v, PATH("/l"), text, 8) == 4);
    check(!memcmp(text, "/d/bz", 5));
    check(CALL(readlink)(v, PATH("/a"), text, 8) == PANSUYOG_INVAL && CALL(readlink)(v, PATH("/l"), text, 0) == 4);
    check(CALL(symlink)(v, PATH("/loop"), PATH("/loop")) == 0 && CALL(open)(v, PATH("/loop")) == PANSUYOG_LOOP);
    check(CALL(unlink)(v, PATH("/loop")) == 0);
    check(CALL(unlink)(v, PATH("/none")) == PANSUYOG_NO_ENTRY && CALL(rmdir)(v, PATH("/a")) == PANSUYOG_NOT_DIR);
}

/* Whether a mounted volume tells this shape. */
static int is_shape(volume_t *v, uint32_t segments, uint32_t version, uint32_t unit) {
    pansuyog_shape_t told = {9, 9, 9, 9};
    check(CALL(shape)(v, &told) == 0);
    return told.segments == segments && told.version == version && told.segment_sectors == PANSUYOG_SEGMENT_SECTORS && told.unit == unit;
}

static void looks(volume_t *v) {
    pansuyog_stat_t stat = {9, 9, 9, 9};
    pansuyog_space_t space;
    pansuyog_entry_t entry = {9, 9};
    char name[128];
    check(CALL(stat)(v, PATH("/none"), &stat) == PANSUYOG_NO_ENTRY && stat.size == 9 && stat.links == 9);
    check(CALL(stat)(v, PATH("/l"), &stat) == 0 && stat.kind == PANSUYOG_FILE && stat.size == 12 && stat.links == 2);
    check(CALL(lstat)(v, PATH("/l"), &stat) == 0 && stat.kind == PANSUYOG_LINK && stat.size == 4 && stat.links == 1);
    check(CALL(stat)(v, PATH("/"), &stat) == 0 && stat.kind == PANSUYOG_DIRECTORY && stat.number == 1 && stat.size == 3 * 64);
    check(CALL(entry)(v, 0, &entry, name, sizeof name) == 0 && entry.number == 9);
    check(CALL(list)(v, PATH("/a")) == PANSUYOG_NOT_DIR && CALL(list)(v, PATH("/")) == 3);
    memset(name, 'z', sizeof name);
    check(CALL(entry)(v, 0, &entry, name, sizeof name) == 1 && !memcmp(name, "az", 2) && entry.kind == PANSUYOG_FILE);
    check(entry.number == 2);
    check(CALL(entry)(v, 1, &entry, name, 0) == 1 && name[0] == 'a' && entry.kind == PANSUYOG_DIRECTORY);
    check(CALL(list)(v, PATH("/none")) == PANSUYOG_NO_ENTRY);
    check(CALL(entry)(v, 2, &entry, name, 1) == 1 && name[0] == 'l' && entry.kind == PANSUYOG_LINK);
    check(CALL(entry)(v, 3, &entry, name, 1) == 0 && CALL(entry)(v, SIZE_MAX, &entry, name, 1) == 0 && entry.kind == PANSUYOG_LINK);
    check(CALL(list)(v, PATH("/d")) == 1 && CALL(entry)(v, 1, &entry, name, 1) == 0);
    check(CALL(space)(v, &space) == 0 && space.limit == 47 * 128 && space.need == space.data_blocks + 7 * space.meta_blocks + 720);
    check(is_shape(v, 128, 1, 1) && CALL(version)(v) == 1 && CALL(widen)(v, PATH("/d")) == PANSUYOG_INVAL && CALL(upgrade)(v) == 0);
    check(CALL(version)(v) == 2 && is_shape(v, 128, 2, 1));
    check(CALL(widen)(v, PATH("/d")) == 0 && CALL(widen)(v, PATH("/a")) == PANSUYOG_NOT_DIR);
    check(CALL(widen)(v, PATH("/none")) == PANSUYOG_NO_ENTRY);
}

/* How many sectors a volume of a shape takes, and of which there is none. */
static void sizes(void) {
    check(CALL(shape_sectors)(64, 1, 64, 1) == 2 + 64 * 64 && CALL(shape_sectors)(1024, 2, 64, 1) == 2 + 64 * 1024);
    for (uint32_t unit = 1; unit <= 64; unit *= 2) check(CALL(shape_sectors)(72, 3, 64, unit) == 256 + 64 * 72);
    check(CALL(shape_sectors)(1024, 3, 64, 64) == 256 + 64 * 1024);
    check(CALL(shape_sectors)(0, 3, 64, 1) == 0 && CALL(shape_sectors)(56, 3, 64, 1) == 0 && CALL(shape_sectors)(65, 3, 64, 1) == 0);
    check(CALL(shape_sectors)(1032, 3, 64, 1) == 0 && CALL(shape_sectors)(UINT32_MAX, 3, 64, 1) == 0);
    check(CALL(shape_sectors)(64, 0, 64, 1) == 0 && CALL(shape_sectors)(64, 4, 64, 1) == 0);
    check(CALL(shape_sectors)(64, 3, 0, 1) == 0 && CALL(shape_sectors)(64, 3, 32, 1) == 0 && CALL(shape_sectors)(64, 3, 128, 1) == 0);
    check(CALL(shape_sectors)(64, 3, 64, 0) == 0 && CALL(shape_sectors)(64, 3, 64, 3) == 0 && CALL(shape_sectors)(64, 3, 64, 128) == 0);
    check(CALL(shape_sectors)(64, 1, 64, 2) == 0 && CALL(shape_sectors)(64, 2, 64, 8) == 0);
}

/* A volume of version 3 is made, and keeps what was saved and its shape. */
static void keeps(const char *path, uint32_t segments, uint32_t unit) {
    static char bytes[3000], read[3000];
    struct image image;
    struct stat file;
    memset(bytes, 'a', sizeof bytes);
    check(make_image_with(path, (pansuyog_shape_t){segments, 3, PANSUYOG_SEGMENT_SECTORS, unit}) == 0);
    check(stat(path, &file) == 0 && file.st_size == (off_t)SECTOR * (256 + 64 * segments));
    check(mount_image(&image, path, 0) == 0 && is_shape(&image.volume, segments, 3, unit) && CALL(version)(&image.volume) == 3);
    check(CALL(create)(&image.volume, PATH("/a")) == 0 && CALL(pwrite)(&image.volume, 0, 0, bytes, sizeof bytes) == sizeof bytes);
    check(save_image(&image) == 0 && CALL(mkdir)(&image.volume, PATH("/lost")) == 0);
    drop_image(&image);
    check(mount_image(&image, path, 0) == 0 && is_shape(&image.volume, segments, 3, unit));
    check(CALL(open)(&image.volume, PATH("/a")) == 0 && CALL(pread)(&image.volume, 0, 0, read, sizeof read) == sizeof read);
    check(!memcmp(bytes, read, sizeof read) && CALL(list)(&image.volume, PATH("/")) == 1 && CALL(upgrade)(&image.volume) == 0);
    check(is_shape(&image.volume, segments, 3, unit));
    drop_image(&image);
    check(unlink(path) == 0);
}

/* Volumes of shapes, at a path where nothing is. */
static void shapes(const char *path) {
    sizes();
    check(make_image_with(path, (pansuyog_shape_t){64, 3, 64, 3}) == PANSUYOG_INVAL && access(path, F_OK) < 0);
    check(make_image_with(path, (pansuyog_shape_t){64, 2, 64, 8}) == PANSUYOG_INVAL && access(path, F_OK) < 0);
    check(make_image_with(path, (pansuyog_shape_t){64, 3, 32, 1}) == PANSUYOG_INVAL && access(path, F_OK) < 0);
    keeps(path, 64, 1);
    keeps(path, 72, 8);
    keeps(path, 1024, 64);
}

/* Whether a file has these bytes and no others. */
static int holds(volume_t *v, const char *path, const char *text) {
    char bytes[64];
    size_t length = strlen(text);
    int32_t file = CALL(open)(v, path, strlen(path));
    if (file < 0) return 0;
    int32_t count = CALL(pread)(v, (uint32_t)file, 0, bytes, sizeof bytes);
    check(CALL(close)(v, (uint32_t)file) == 0);
    return count == (int32_t)length && !memcmp(bytes, text, length);
}

/* A file ends behind ten bytes and with its day, and two files are kept. */
static void lines(volume_t *v) {
    check(CALL(record_begin)(v, 10, 2) == 0 && CALL(list)(v, PATH("/")) == 0);
    check(CALL(record_line)(v, "2026-01-01", "one", 3) == 0 && CALL(record_line)(v, "2026-01-01", "and two", 7) == 0);
    check(CALL(list)(v, PATH("/")) == 1 && holds(v, "/00000001-2026-01-01", "one\nand two\n"));
    check(CALL(record_line)(v, "2026-01-01", "three", 5) == 0 && holds(v, "/00000002-2026-01-01", "three\n"));
    check(CALL(record_line)(v, "2026-01-02", "", 0) == 0 && holds(v, "/00000003-2026-01-02", "\n") && CALL(list)(v, PATH("/")) == 2);
    check(CALL(record_line)(v, "2026-01-01", "back", 4) == 0 && holds(v, "/00000004-2026-01-01", "back\n"));
    check(CALL(list)(v, PATH("/")) == 2 && holds(v, "/00000003-2026-01-02", "\n") && CALL(record_save)(v) == 0);
}

/* What is no line and no day isn't taken, and nothing is written of it. */
static void no_lines(volume_t *v, char line[65536]) {
    const int32_t no = PANSUYOG_INVAL;
    check(CALL(record_line)(v, "2026-01-01", "a\nb", 3) == no && CALL(record_line)(v, "2026-01-01", "\n", 1) == no);
    check(CALL(record_line)(v, "2026-01-1 ", "a", 1) == no && CALL(record_line)(v, "2026/01/01", "a", 1) == no);
    check(CALL(record_line)(v, "2026-01-01", line, 65536) == no && holds(v, "/00000004-2026-01-01", "back\n"));
}

/* A recorder that begins goes on in the newest file, where that ends with a newline, and gives up what one before had open. */
static void beginning_again(volume_t *v) {
    for (int round = 0; round < 100; round++) check(CALL(record_begin)(v, 10, 0) == 0);
    check(CALL(record_line)(v, "2026-01-01", "on", 2) == 0 && holds(v, "/00000004-2026-01-01", "back\non\n") && CALL(record_save)(v) == 0);
    check(CALL(record_line)(v, "2026-01-02", "lost", 4) == 0 && CALL(unmount)(v) == 0);
}

/* A mount begins with no recorder. A file whose last line is half stays as it is, and another follows it. */
static void behind_a_mount(volume_t *v) {
    check(CALL(record_line)(v, "2026-01-01", "a", 1) == PANSUYOG_INVAL && CALL(record_save)(v) == PANSUYOG_INVAL);
    check(CALL(list)(v, PATH("/")) == 2 && CALL(open)(v, PATH("/00000004-2026-01-01")) == 0);
    check(CALL(pwrite)(v, 0, 8, "half", 4) == 4 && CALL(record_begin)(v, 100, 0) == 0);
    check(CALL(record_line)(v, "2026-01-01", "whole", 5) == 0 && holds(v, "/00000004-2026-01-01", "back\non\nhalf"));
    check(holds(v, "/00000005-2026-01-01", "whole\n"));
}

/* Where there is no space the oldest file goes, but none of another name. A line of 65,536 bytes needs 128 blocks, one of pointers and an
 * inode, which count seven times each, and the eighth of a block for its name: docs/CALLS.md has the rule. So 15 such files are left. */
static void full(struct image *image, char line[65536]) {
    volume_t *v = &image->volume;
    char name[24];
    pansuyog_entry_t entry;
    check(CALL(create)(v, PATH("/00000000-other")) == 0 && CALL(pwrite)(v, 0, 0, "a", 1) == 1 && CALL(record_begin)(v, 1, 0) == 0);
    for (int number = 1; number <= 40; number++) {
        check(CALL(record_line)(v, "2026-01-01", line, 65535) == 0);
        if (number % 8 == 0) check(save_image(image) == 0);
    }
    check(CALL(list)(v, PATH("/")) == 16);
    check(CALL(entry)(v, 0, &entry, name, sizeof name) == 14 && !memcmp(name, "00000000-other", 14));
    check(CALL(entry)(v, 1, &entry, name, sizeof name) == 19 && !memcmp(name, "00000026-2026-01-01", 19));
    check(CALL(entry)(v, 15, &entry, name, sizeof name) == 19 && !memcmp(name, "00000040-2026-01-01", 19));
}

/* A recorder, at a path where nothing is. */
static void recording(const char *path) {
    static char line[65536];
    struct image image;
    memset(line, 'a', sizeof line);
    check(make_image(path, 64, 1) == 0 && mount_image(&image, path, 0) == 0);
    check(CALL(record_line)(&image.volume, "2026-01-01", "a", 1) == PANSUYOG_INVAL && CALL(record_save)(&image.volume) == PANSUYOG_INVAL);
    lines(&image.volume);
    no_lines(&image.volume, line);
    beginning_again(&image.volume);
    unmounted(&image.volume);
    check(remount_image(&image) == 0);
    behind_a_mount(&image.volume);
    drop_image(&image);
    check(unlink(path) == 0 && make_image(path, 64, 1) == 0 && mount_image(&image, path, 0) == 0);
    full(&image, line);
    drop_image(&image);
    check(unlink(path) == 0);
}

/* Each code says something of its own. */
static void texts(void) {
    const char *unknown = pansuyog_text(-50);
    int known = 0;
    for (int32_t code = PANSUYOG_LOCK_FAILED; code <= 0; code++) {
        const char *text = pansuyog_text(code);
        if (strcmp(text, unknown) == 0) continue;
        known++;
        for (int32_t other = code + 1; other <= 0; other++) check(strcmp(text, pansuyog_text(other)) != 0);
    }
    check(known == 31 && strcmp(pansuyog_text(-101), unknown) != 0 && strcmp(pansuyog_text(-101), pansuyog_text(-115)) == 0);
}

#endif
