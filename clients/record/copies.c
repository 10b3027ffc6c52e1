#include "copies.h"

enum { PIECE = 65536 };

/* So many files of one name and other bytes may be in the folder: a volume that is made anew begins with the first number again. */
enum { MOST_OF_A_NAME = 100 };

static bool is_name(const char *name, int32_t length) {
    static const char pattern[] = "00000000-0000-00-00";
    if (length != NAME_LENGTH) return false;
    for (int at = 0; at < NAME_LENGTH; at++)
        if (pattern[at] == '-' ? name[at] != '-' : name[at] < '0' || name[at] > '9') return false;
    return true;
}

static uint32_t number_of(const char *name) {
    uint32_t number = 0;
    for (int at = 0; at < 8; at++) number = 10 * number + (uint32_t)(name[at] - '0');
    return number;
}

/* The recorder's file at a place of those that were listed: whether there is one, and its name. */
static bool find_name(struct copies *copies, int32_t place, char name[NAME_LENGTH + 1]) {
    pansuyog_entry_t entry;
    int32_t length = pansuyog_file_entry(&copies->image->volume, (size_t)place, &entry, name, NAME_LENGTH);
    name[NAME_LENGTH] = '\0';
    return is_name(name, length) && entry.kind == PANSUYOG_FILE;
}

/* Gives each piece of a file of the volume to `take`, with its place, until that answers false: whether it never did. */
static bool read_pieces(struct copies *copies, const char *name, bool (*take)(int fd, const char *bytes, size_t count, off_t at), int fd) {
    char path[NAME_LENGTH + 2], bytes[PIECE];
    pansuyog_file *volume = &copies->image->volume;
    int length = snprintf(path, sizeof path, "/%s", name);
    int32_t handle = pansuyog_file_open(volume, path, (size_t)length), count = handle;
    off_t at = 0;
    bool goes_on = handle >= 0;
    while (goes_on && (count = pansuyog_file_pread(volume, (uint32_t)handle, (uint64_t)at, bytes, sizeof bytes)) > 0) {
        goes_on = take(fd, bytes, (size_t)count, at);
        at += count;
    }
    int error = errno;
    if (count < 0) pansuyog_file_perror(copies->image->path, count, volume, NULL);
    int32_t closed = handle < 0 ? PANSUYOG_OK : pansuyog_file_close(volume, (uint32_t)handle);
    errno = count < 0 || closed != PANSUYOG_OK ? EIO : error;
    return goes_on && count == 0 && closed == PANSUYOG_OK && take(fd, NULL, 0, at);
}

/* A piece goes into the copy, which is synced behind the last one. */
static bool write_piece(int fd, const char *bytes, size_t count, off_t at) {
    if (count == 0) return pansuyog_sync_all(fd) == 0;
    return image_write_all(fd, bytes, count, at);
}

/* A piece is that of the copy, which ends behind the last one. */
static bool is_piece(int fd, const char *bytes, size_t count, off_t at) {
    char found[PIECE];
    ssize_t read = pread(fd, found, count == 0 ? 1 : count, at);
    return read == (ssize_t)count && (count == 0 || memcmp(found, bytes, count) == 0);
}

static bool is_copy(struct copies *copies, const char *name, const char *path) {
    int fd = open(path, O_RDONLY | O_NONBLOCK | O_CLOEXEC);
    if (fd < 0) return false;
    bool is_same = read_pieces(copies, name, is_piece, fd);
    (void)close(fd);
    return is_same;
}

/* Tells why there is no copy: the system's last reason. */
static bool tell(const char *path) {
    fprintf(stderr, "%s: it can't be made: %s\n", path, strerror(errno));
    return false;
}

/* Copies a file to a path where nothing is. Until it is whole and synced it has another name. */
static bool copy_to(struct copies *copies, const char *name, const char *path) {
    char part[PATH_MAX];
    errno = ENAMETOOLONG;
    if (snprintf(part, sizeof part, "%s.part", path) >= (int)sizeof part) return tell(path);
    int fd = open(part, O_WRONLY | O_CREAT | O_TRUNC | O_NOFOLLOW | O_NONBLOCK | O_CLOEXEC, 0666);
    if (fd < 0) return tell(part);
    bool is_whole = read_pieces(copies, name, write_piece, fd);
    int error = errno;
    if (close(fd) == 0) errno = error;
    else is_whole = false;
    if (is_whole && rename(part, path) == 0 && pansuyog_sync_folder(path, NULL) == PANSUYOG_OK) return true;
    return tell(path);
}

/* Copies a file, where no copy of it is there yet: whether there is one now. */
static bool copy(struct copies *copies, const char *name) {
    char path[PATH_MAX];
    struct stat found;
    for (int more = 0; more < MOST_OF_A_NAME; more++) {
        int length = more == 0 ? snprintf(path, sizeof path, "%s/%s", copies->folder, name)
                               : snprintf(path, sizeof path, "%s/%s.%d", copies->folder, name, more);
        errno = ENAMETOOLONG;
        if (length >= (int)sizeof path) return tell(copies->folder);
        if (lstat(path, &found) != 0) return errno == ENOENT ? copy_to(copies, name, path) : tell(path);
        if (is_copy(copies, name, path)) return true;
    }
    errno = EEXIST;
    return tell(path);
}

/* The number of the newest file, 0 where there is none. It lists the root, in which there are so many names. */
static uint32_t find_newest(struct copies *copies, int32_t *count) {
    char name[NAME_LENGTH + 1];
    *count = pansuyog_file_list(&copies->image->volume, "/", 1);
    for (int32_t place = *count - 1; place >= 0; place--)
        if (find_name(copies, place, name)) return number_of(name);
    return 0;
}

void copies_look(struct copies *copies) {
    char name[NAME_LENGTH + 1];
    int32_t count;
    bool is_well = true;
    if (copies->folder == NULL) return;
    uint32_t newest = find_newest(copies, &count);
    if (newest == copies->newest) return;
    copies->newest = newest;
    for (int32_t place = 0; is_well && place < count; place++) {
        if (!find_name(copies, place, name)) continue;
        uint32_t number = number_of(name);
        if (number <= copies->copied || number >= newest) continue;
        is_well = copy(copies, name);
        if (is_well) copies->copied = number;
    }
}
