/* Preloaded into a program, it lets calls of the system fail. FAULTS of the environment has words for what does:
 *     link    no link is made, as on a file system without them
 *     race    another program takes the name that a file is to get
 *     read    two of three reads are interrupted, and none gives more than 300 bytes
 *     write   there is no space for a write
 *     sync    a sync behind a write fails
 * And the program ends at its call number STOP of those that change a file, before it is made. */
#define _GNU_SOURCE
#include <dlfcn.h>
#include <errno.h>
#include <fcntl.h>
#include <stdio.h>
#include <stdlib.h>
#include <string.h>
#include <unistd.h>

#define NEXT(name) ((__typeof__(&name))dlsym(RTLD_NEXT, #name))

static int is_asked(const char *fault) {
    const char *faults = getenv("FAULTS");
    return faults != NULL && strstr(faults, fault) != NULL;
}

static int fails(const char *fault, int error) {
    if (!is_asked(fault)) return 0;
    errno = error;
    return 1;
}

static void count_call(void) {
    static long calls;
    const char *stop = getenv("STOP");
    if (stop != NULL && calls++ == atol(stop)) _exit(9);
}

static int has_written;

#define READS(name, offset_type)                                               \
    ssize_t name(int fd, void *bytes, size_t count, offset_type offset) {      \
        static unsigned calls;                                                 \
        if (calls++ % 3 != 2 && fails("read", EINTR)) return -1;               \
        if (is_asked("read") && count > 300) count = 300;                      \
        return NEXT(name)(fd, bytes, count, offset);                           \
    }

#define WRITES(name, offset_type)                                              \
    ssize_t name(int fd, const void *bytes, size_t count, offset_type offset) { \
        count_call();                                                          \
        has_written = 1;                                                       \
        return fails("write", ENOSPC) ? -1 : NEXT(name)(fd, bytes, count, offset); \
    }

#define CUTS(name, offset_type)                                                \
    int name(int fd, offset_type length) {                                     \
        count_call();                                                          \
        return NEXT(name)(fd, length);                                         \
    }

READS(pread, off_t)
READS(pread64, off64_t)
WRITES(pwrite, off_t)
WRITES(pwrite64, off64_t)
CUTS(ftruncate, off_t)
CUTS(ftruncate64, off64_t)

int fsync(int fd) {
    count_call();
    return has_written && fails("sync", EIO) ? -1 : NEXT(fsync)(fd);
}

/* Another program's file of this name. */
static void race(const char *path) {
    FILE *file = is_asked("race") ? fopen(path, "wx") : NULL;
    if (file == NULL) return;
    fputs("of another program\n", file);
    fclose(file);
}

int link(const char *from, const char *to) {
    count_call();
    race(to);
    return fails("link", EPERM) ? -1 : NEXT(link)(from, to);
}

int linkat(int from_folder, const char *from, int to_folder, const char *to, int flags) {
    count_call();
    race(to);
    return fails("link", EPERM) ? -1 : NEXT(linkat)(from_folder, from, to_folder, to, flags);
}

int rename(const char *from, const char *to) {
    count_call();
    return NEXT(rename)(from, to);
}

int unlink(const char *path) {
    count_call();
    return NEXT(unlink)(path);
}
