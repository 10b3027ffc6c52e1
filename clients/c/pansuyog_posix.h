/* What the drivers of the two libraries have in common: what the system refused, and how an image is opened, locked and made. This is C of
 * POSIX.1-2008: with -std=c11 define _POSIX_C_SOURCE as 200809L before the first header. */
#ifndef PANSUYOG_POSIX_H
#define PANSUYOG_POSIX_H

#include "pansuyog_types.h"
#include <errno.h>
#include <fcntl.h>
#include <limits.h>
#include <stdio.h>
#include <string.h>
#include <sys/file.h>
#include <sys/stat.h>
#include <sys/types.h>
#include <time.h>
#include <unistd.h>

enum { PANSUYOG_SECTOR = 512 };

enum pansuyog_failed_call {
    PANSUYOG_NO_CALL = 0,
    PANSUYOG_AT_OPEN,
    PANSUYOG_AT_LOCK, /* another program has the lock */
    PANSUYOG_AT_READ,
    PANSUYOG_AT_WRITE,
    PANSUYOG_AT_SYNC,
    PANSUYOG_AT_LINK,
    PANSUYOG_AT_CHANGE /* a write or a sync, of which the library pansuyog_file doesn't tell which it was */
};

/* What the system refused. Each function below that takes a place for it fills it, be it with nothing. The place may be null. */
typedef struct pansuyog_failed_t {
    enum pansuyog_failed_call call;
    uint32_t sector; /* the first one of a read or a write */
    int error;       /* why: a number of errno.h */
} pansuyog_failed_t;

static inline void pansuyog_clear(pansuyog_failed_t *failed) {
    if (failed != NULL) memset(failed, 0, sizeof *failed);
}

/* Fills in what the system refused, and why by errno: DEVICE. */
static inline int32_t pansuyog_fail(pansuyog_failed_t *failed, enum pansuyog_failed_call call, uint32_t sector) {
    if (failed != NULL) {
        failed->call = call;
        failed->sector = sector;
        failed->error = errno;
    }
    return PANSUYOG_DEVICE;
}

/* Says on standard error, in a line that begins with the image's name, why a call answered this code. */
static inline void pansuyog_perror(const char *image, int32_t code, const pansuyog_failed_t *failed) {
    static const char *const calls[] = {"nothing", "an open", "a lock", "a read", "a write", "a sync", "a link", "a write or a sync"};
    enum pansuyog_failed_call call = failed == NULL ? PANSUYOG_NO_CALL : failed->call;
    if (call == PANSUYOG_AT_LOCK)
        fprintf(stderr, "%s: it is in use by another program\n", image);
    else if (code == PANSUYOG_DEVICE && call != PANSUYOG_NO_CALL)
        fprintf(stderr, "%s: %s failed: %s\n", image, calls[call], strerror(failed->error));
    else if (call == PANSUYOG_AT_READ)
        fprintf(stderr, "%s: %s, and sector %u can't be read: %s\n", image, pansuyog_text(code), failed->sector, strerror(failed->error));
    else
        fprintf(stderr, "%s: %s\n", image, pansuyog_text(code));
}

/* Opening */

/* Takes the lock that the program lfs takes: LOCK_EX of who writes, LOCK_SH of who looks. It goes with the descriptor. DEVICE where
 * another program has it. Who writes tries it for a second, since a look may have it for a moment. A file system without locks refuses
 * nothing. */
static inline int32_t pansuyog_lock_fd(int fd, int how, pansuyog_failed_t *failed) {
    const struct timespec pause = {0, 1000000};
    int tries = how == LOCK_EX ? 1000 : 1;
    pansuyog_clear(failed);
    while (flock(fd, how | LOCK_NB)) {
        if (errno != EWOULDBLOCK) return PANSUYOG_OK;
        if (--tries == 0) return pansuyog_fail(failed, PANSUYOG_AT_LOCK, 0);
        nanosleep(&pause, NULL);
    }
    return PANSUYOG_OK;
}

/* Opens a file, at no descriptor of a standard stream: the system gives it one that is closed. */
static inline int pansuyog_open_apart(const char *path, int flags) {
    int first = open(path, flags | O_CLOEXEC, 0666);
    if (first < 0 || first > STDERR_FILENO) return first;
    int fd = fcntl(first, F_DUPFD_CLOEXEC, STDERR_FILENO + 1), error = errno;
    close(first);
    errno = error;
    return fd;
}

/* Opens a file or a block device that is there, and locks it: LOCK_EX to write it, LOCK_SH to look at it. The descriptor, or DEVICE. */
static inline int32_t pansuyog_open_fd(const char *path, int how, pansuyog_failed_t *failed) {
    struct stat found;
    pansuyog_clear(failed);
    /* It is looked up before, since opening a pipe waits for its other end. */
    if (stat(path, &found)) return pansuyog_fail(failed, PANSUYOG_AT_OPEN, 0);
    errno = S_ISDIR(found.st_mode) ? EISDIR : ENOTBLK;
    if (!S_ISREG(found.st_mode) && !S_ISBLK(found.st_mode)) return pansuyog_fail(failed, PANSUYOG_AT_OPEN, 0);
    int fd = pansuyog_open_apart(path, how == LOCK_SH ? O_RDONLY : O_RDWR);
    if (fd < 0) return pansuyog_fail(failed, PANSUYOG_AT_OPEN, 0);
    int32_t code = pansuyog_lock_fd(fd, how, failed);
    if (code == PANSUYOG_OK) return fd;
    close(fd);
    return code;
}

static inline int pansuyog_sync_all(int fd) {
    int status;
    do status = fsync(fd);
    while (status && errno == EINTR);
    return status;
}

/* Making */

/* Opens and locks the file in which a volume is to be made: the descriptor, EXIST where something has the volume's name, or DEVICE. What
 * an earlier stop left of it is taken, but where it was named as a volume by then, that one is left alone. */
static inline int32_t pansuyog_open_made(const char *path, const char *made, pansuyog_failed_t *failed) {
    for (;;) {
        struct stat here, named;
        if (lstat(path, &named) == 0) return PANSUYOG_EXIST;
        if (errno != ENOENT) return pansuyog_fail(failed, PANSUYOG_AT_OPEN, 0);
        int fd = pansuyog_open_apart(made, O_RDWR | O_CREAT | O_NOFOLLOW | O_NONBLOCK);
        if (fd < 0) return pansuyog_fail(failed, PANSUYOG_AT_OPEN, 0);
        int32_t code = pansuyog_lock_fd(fd, LOCK_EX, failed);
        int is_named = !fstat(fd, &here) && !lstat(made, &named) && here.st_dev == named.st_dev && here.st_ino == named.st_ino;
        if (code == PANSUYOG_OK && is_named) {
            int is_file = S_ISREG(here.st_mode);
            if (is_file && here.st_nlink < 2) return fd;
            errno = EEXIST;
            if (!is_file || unlink(made)) code = pansuyog_fail(failed, PANSUYOG_AT_OPEN, 0);
        }
        /* Another program has named or removed it meanwhile, or it was the second name of a volume: all is looked at anew. */
        close(fd);
        if (code != PANSUYOG_OK) return code;
    }
}

/* Gives a file its name, where nothing has it: 0, EXIST, or DEVICE. Not each file system has links: there an empty file takes the name
 * first, and gives way to this one. */
static inline int32_t pansuyog_name_made(const char *made, const char *path, pansuyog_failed_t *failed) {
    int status = link(made, path);
    if (status == 0) unlink(made);
    if (status && (errno == EPERM || errno == EOPNOTSUPP || errno == ENOSYS)) {
        int fd = open(path, O_WRONLY | O_CREAT | O_EXCL | O_CLOEXEC, 0666);
        if (fd >= 0) close(fd);
        status = fd < 0 ? -1 : rename(made, path);
    }
    if (status == 0) return PANSUYOG_OK;
    return errno == EEXIST ? PANSUYOG_EXIST : pansuyog_fail(failed, PANSUYOG_AT_LINK, 0);
}

/* Lets the name of a new file stay. Not each folder can be read, and not each file system syncs one. */
static inline int32_t pansuyog_sync_folder(const char *path, pansuyog_failed_t *failed) {
    char folder[PATH_MAX] = ".";
    const char *slash = strrchr(path, '/');
    if (slash != NULL) snprintf(folder, sizeof folder, "%.*s", slash == path ? 1 : (int)(slash - path), path);
    int fd = open(folder, O_RDONLY | O_DIRECTORY | O_CLOEXEC);
    if (fd < 0) return PANSUYOG_OK;
    int32_t code = pansuyog_sync_all(fd) && errno != EINVAL ? pansuyog_fail(failed, PANSUYOG_AT_SYNC, 0) : PANSUYOG_OK;
    close(fd);
    return code;
}

/* Closes the file in which a volume was to be made. Where that answered 0 the file is synced, gets its name, and keeps it; else it is
 * removed. */
static inline int32_t pansuyog_end_made(const char *path, const char *made, int fd, int32_t code, pansuyog_failed_t *failed) {
    if (code == PANSUYOG_OK && pansuyog_sync_all(fd)) code = pansuyog_fail(failed, PANSUYOG_AT_SYNC, 0);
    if (code == PANSUYOG_OK) code = pansuyog_name_made(made, path, failed);
    if (code != PANSUYOG_OK) unlink(made);
    close(fd);
    if (code == PANSUYOG_EXIST) pansuyog_sync_folder(path, NULL);
    return code == PANSUYOG_OK ? pansuyog_sync_folder(path, failed) : code;
}

/* Opens, locks and cuts to its length the file in which a volume of so many sectors is to be made, and puts its name into `made`: the
 * descriptor, EXIST where something has the volume's name, INVAL where it has no sectors, or DEVICE. */
static inline int32_t pansuyog_begin_made(const char *path, char made[PATH_MAX], uint32_t sectors, pansuyog_failed_t *failed) {
    pansuyog_clear(failed);
    if (sectors == 0) return PANSUYOG_INVAL;
    errno = ENAMETOOLONG;
    if (snprintf(made, PATH_MAX, "%s.lfs-make", path) >= PATH_MAX) return pansuyog_fail(failed, PANSUYOG_AT_OPEN, 0);
    int32_t fd = pansuyog_open_made(path, made, failed), code = PANSUYOG_OK;
    /* A name that is there may be of a moment ago, by a program that was stopped. */
    if (fd == PANSUYOG_EXIST) pansuyog_sync_folder(path, NULL);
    if (fd < 0) return fd;
    if (ftruncate(fd, 0) || ftruncate(fd, (off_t)PANSUYOG_SECTOR * sectors))
        code = pansuyog_fail(failed, PANSUYOG_AT_WRITE, 0);
    return code == PANSUYOG_OK ? fd : pansuyog_end_made(path, made, fd, code, failed);
}

#endif
