#include "image.h"

/* A new volume is of the version for media that spoil more than a sector at a stop, in units of 4 KiB: as `lfs mkfs --size` makes one. */
enum { VERSION = 3, UNIT = 8, SEGMENT_BYTES = PANSUYOG_SEGMENT_SECTORS * PANSUYOG_SECTOR, LEAST_SEGMENTS = 64, SEGMENTS_AT_ONCE = 8 };

/* So many damaged images are kept beside a new one. */
enum { MOST_ASIDE = 3 };

/* As few segments as have these bytes. */
static uint32_t count_segments(uint32_t size) {
    uint32_t eights = (uint32_t)(((uint64_t)size + SEGMENT_BYTES * SEGMENTS_AT_ONCE - 1) / (SEGMENT_BYTES * SEGMENTS_AT_ONCE));
    uint32_t segments = SEGMENTS_AT_ONCE * eights;
    return segments < LEAST_SEGMENTS ? LEAST_SEGMENTS : segments;
}

bool image_write_all(int fd, const char *bytes, size_t count, off_t offset) {
    while (count > 0) {
        ssize_t written = pwrite(fd, bytes, count, offset);
        if (written < 0 && errno == EINTR) continue;
        if (written == 0) errno = EIO;
        if (written <= 0) return false;
        bytes += written;
        count -= (size_t)written;
        offset += written;
    }
    return true;
}

/* Writes each sector once, so that a disk that runs full later has room for them. */
static int32_t reserve(int fd, uint32_t sectors, pansuyog_failed_t *failed) {
    static const char zeros[SEGMENT_BYTES];
    off_t size = (off_t)PANSUYOG_SECTOR * sectors;
    for (off_t at = 0; at < size; at += SEGMENT_BYTES) {
        size_t count = size - at < SEGMENT_BYTES ? (size_t)(size - at) : SEGMENT_BYTES;
        if (!image_write_all(fd, zeros, count, at)) return pansuyog_fail(failed, PANSUYOG_AT_WRITE, (uint32_t)(at / PANSUYOG_SECTOR));
    }
    return pansuyog_sync_all(fd) ? pansuyog_fail(failed, PANSUYOG_AT_SYNC, 0) : PANSUYOG_OK;
}

/* Makes a volume where nothing has the image's name: EXIST where something has. It gets that name once it is whole and synced. */
static int32_t make_volume(struct image *image, uint32_t segments, bool is_sparse) {
    char made[PATH_MAX];
    uint32_t sectors = pansuyog_file_shape_sectors(segments, VERSION, PANSUYOG_SEGMENT_SECTORS, UNIT);
    int32_t fd = pansuyog_begin_made(image->path, made, sectors, &image->failed);
    if (fd < 0) return fd;
    int32_t code = is_sparse ? PANSUYOG_OK : reserve(fd, sectors, &image->failed);
    if (code == PANSUYOG_OK)
        code = pansuyog_file_fill_made(&image->volume, fd, segments, VERSION, PANSUYOG_SEGMENT_SECTORS, UNIT, &image->failed);
    code = pansuyog_end_made(image->path, made, fd, code, &image->failed);
    pansuyog_file_abandon(&image->volume);
    return code;
}

/* Another descriptor of an open file, whose sync tells whether a write was lost since. */
static int open_second(int fd) {
    char path[64];
    int length = snprintf(path, sizeof path, "/proc/self/fd/%d", (int)fd);
    return length > 0 && (size_t)length < sizeof path ? open(path, O_RDONLY | O_CLOEXEC) : -1;
}

/* Opens and locks an image that is there, and mounts its volume. */
static int32_t mount_volume(struct image *image) {
    int32_t fd = pansuyog_open_fd(image->path, LOCK_EX, &image->failed);
    if (fd < 0) return image->failed.call == PANSUYOG_AT_LOCK ? PANSUYOG_IN_USE : fd;
    image->second = open_second(fd);
    int32_t code = pansuyog_file_lend(&image->volume, fd, PANSUYOG_FILE_READ_WRITE);
    return code == PANSUYOG_OK ? pansuyog_file_mount(&image->volume) : code;
}

/* Whether a name is that of a device. Where the device isn't there no file takes its place, which would lie in memory. */
static bool is_of_device(const char *path) {
    return strncmp(path, "/dev/", 5) == 0 && strncmp(path, "/dev/shm/", 9) != 0;
}

static int32_t make_or_mount(struct image *image, uint32_t segments, bool is_sparse) {
    int32_t code = is_of_device(image->path) ? PANSUYOG_EXIST : make_volume(image, segments, is_sparse);
    return code == PANSUYOG_OK || code == PANSUYOG_EXIST ? mount_volume(image) : code;
}

static bool is_damage(int32_t code) {
    return pansuyog_damage(code) != 0 || code == PANSUYOG_DAMAGED || code == PANSUYOG_NO_CHECKPOINT || code == PANSUYOG_TOO_SMALL;
}

/* Whether a sector begins as a checkpoint does. */
static bool has_checkpoint(int fd, off_t sector) {
    static const char mark[] = "SLFSCKP1";
    char found[sizeof mark - 1];
    ssize_t count = pread(fd, found, sizeof found, PANSUYOG_SECTOR * sector);
    return count == (ssize_t)sizeof found && memcmp(found, mark, sizeof found) == 0;
}

/* Whether the image is a file that was a volume: one of the sectors that checkpoints stand in, of any version, begins as one. */
static bool was_volume(const struct image *image) {
    struct stat found;
    int fd = image->second;
    if (fd < 0 || fstat(fd, &found) != 0 || !S_ISREG(found.st_mode)) return false;
    return has_checkpoint(fd, 0) || has_checkpoint(fd, 1) || has_checkpoint(fd, 128);
}

/* Whether the image's name still gives the file that was looked at. */
static bool is_same_file(const struct image *image) {
    struct stat opened, named;
    if (fstat(image->second, &opened) != 0 || stat(image->path, &named) != 0) return false;
    return opened.st_dev == named.st_dev && opened.st_ino == named.st_ino;
}

static void abandon(struct image *image) {
    pansuyog_file_abandon(&image->volume);
    if (image->second >= 0) (void)close(image->second);
    image->second = -1;
}

/* Gives the image the first name of IMAGE.0 and so on that nothing has: whether it has one. */
static bool rename_aside(struct image *image, char aside[PATH_MAX]) {
    struct stat found;
    for (int number = 0; number < MOST_ASIDE; number++) {
        int length = snprintf(aside, PATH_MAX, "%s.%d", image->path, number);
        if (length < 0 || length >= PATH_MAX) return false;
        if (lstat(aside, &found) == 0) continue;
        return errno == ENOENT && is_same_file(image) && rename(image->path, aside) == 0 &&
               pansuyog_sync_folder(image->path, NULL) == PANSUYOG_OK;
    }
    return false;
}

/* Moves a damaged image aside, so that a new one can be made: whether it is. It is told. */
static bool move_aside(struct image *image, int32_t code) {
    char aside[PATH_MAX];
    bool is_moved = rename_aside(image, aside);
    if (is_moved)
        fprintf(stderr, "%s: %s; it is %s from now on\n", image->path, pansuyog_text(code), aside);
    else
        fprintf(stderr, "%s: %s, and no name of %s.0 to %s.%d can be given to it\n", image->path, pansuyog_text(code), image->path,
                image->path, MOST_ASIDE - 1);
    abandon(image);
    return is_moved;
}

int image_open(struct image *image, const char *path, uint32_t size, bool is_sparse) {
    image->path = path;
    image->second = -1;
    pansuyog_clear(&image->failed);
    int32_t code = pansuyog_file_new(&image->volume);
    if (code != PANSUYOG_OK) {
        image->volume.inside = NULL;
        pansuyog_perror(path, code, NULL);
        return STATUS_TRY_AGAIN;
    }
    for (;;) {
        code = make_or_mount(image, count_segments(size), is_sparse);
        if (code == PANSUYOG_OK) return 0;
        if (!is_damage(code) || !was_volume(image)) return image_refuse(image, code);
        if (!move_aside(image, code)) return STATUS_TRY_AGAIN;
    }
}

static bool is_for_room(int error) {
    return error == ENOSPC || error == EDQUOT || error == EFBIG;
}

/* Whether all that was written since the image was opened is on its medium. The system tells each descriptor of a write that was lost. */
static bool is_synced(const struct image *image) {
    return image->second >= 0 && pansuyog_sync_all(image->second) == 0;
}

/* Whether the system's cache may hold what the medium hasn't got, so that the machine is restarted before the next mount. Where a write
 * found no room nothing that was written before is in doubt. */
static bool is_in_doubt(struct image *image, int32_t code) {
    if (code != PANSUYOG_HALTED && code != PANSUYOG_DEVICE) return false;
    switch (image->failed.call) {
    case PANSUYOG_AT_OPEN:
    case PANSUYOG_AT_LOCK:
    case PANSUYOG_AT_LINK:
        return false;
    case PANSUYOG_NO_CALL:
        return code == PANSUYOG_DEVICE || !is_for_room(pansuyog_file_errno(&image->volume)) || !is_synced(image);
    default: /* of an image that is made */
        return !is_for_room(image->failed.error);
    }
}

int image_refuse(struct image *image, int32_t code) {
    pansuyog_file_perror(image->path, code, &image->volume, &image->failed);
    return is_in_doubt(image, code) ? STATUS_RESTART : STATUS_TRY_AGAIN;
}

void image_close(struct image *image) {
    if (image->volume.inside == NULL) return;
    abandon(image);
    pansuyog_file_free(image->volume);
}
