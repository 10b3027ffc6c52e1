/* Each call of the library over a file, with its answers, and with each bad argument that the header allows.
 *     calls_file IMAGE */
#define _GNU_SOURCE
#ifndef OVER_FILE
#define OVER_FILE
#endif
#include "both.h"
#include <sys/wait.h>

/* Gives a descriptor. Where it is refused it is closed. */
static int32_t take(pansuyog_file *v, int fd, uint32_t flags) {
    int32_t *descriptor = malloc(sizeof *descriptor);
    check(descriptor != NULL);
    *descriptor = fd;
    int32_t code = pansuyog_file_take(v, descriptor, flags);
    check(fd < 0 || (fcntl(fd, F_GETFD) < 0) == (code != 0));
    return code;
}

/* A volume that holds nothing, and descriptors that aren't taken. */
static void beginning(pansuyog_file *v, const char *image) {
    int pipes[2];
    unmounted(v);
    check(pansuyog_file_errno(v) == 0 && pansuyog_file_mount(v) == PANSUYOG_INVAL && pansuyog_file_format(v, 64, 1) == PANSUYOG_INVAL);
    check(take(v, -1, 0) == PANSUYOG_LOCK_FAILED && take(v, -1, 2) == PANSUYOG_INVAL && pipe(pipes) == 0);
    check(take(v, pipes[0], 0) == PANSUYOG_DEVICE && take(v, pipes[1], 0) == PANSUYOG_DEVICE);
    check(take(v, open(image, O_RDWR), 2) == PANSUYOG_INVAL && take(v, open(image, O_RDWR), UINT32_MAX) == PANSUYOG_INVAL);
    check(pansuyog_file_mount(v) == PANSUYOG_INVAL);
    check(take(v, open("/dev/null", O_RDWR), 0) == 0 && pansuyog_file_mount(v) == PANSUYOG_TOO_SMALL);
    check(take(v, open(image, O_RDWR), 0) == 0 && take(v, open(image, O_RDWR), 0) == PANSUYOG_IN_USE);
    pansuyog_file_abandon(v);
    pansuyog_file_abandon(v);
    unmounted(v);
    check(pansuyog_file_mount(v) == PANSUYOG_INVAL);
}

/* An empty volume is made and mounted. */
static void making(pansuyog_file *v, const char *image) {
    check(take(v, open(image, O_RDWR), 0) == 0 && pansuyog_file_mount(v) == PANSUYOG_NO_CHECKPOINT);
    check(pansuyog_file_format(v, 0, 1) == PANSUYOG_INVAL && pansuyog_file_format(v, 65, 1) == PANSUYOG_INVAL);
    check(pansuyog_file_format(v, 1032, 1) == PANSUYOG_INVAL && pansuyog_file_format(v, UINT32_MAX, 1) == PANSUYOG_INVAL);
    check(pansuyog_file_format(v, 128, 0) == PANSUYOG_INVAL && pansuyog_file_format(v, 128, 3) == PANSUYOG_INVAL);
    check(pansuyog_file_format(v, 136, 1) == PANSUYOG_TOO_SMALL && pansuyog_file_format(v, 128, 1) == 0);
    unmounted(v);
    check(pansuyog_file_mount(v) == 0 && pansuyog_file_mount(v) == PANSUYOG_ALREADY_MOUNTED);
    check(pansuyog_file_format(v, 128, 1) == PANSUYOG_ALREADY_MOUNTED);
    check(take(v, open("/dev/null", O_RDWR), 0) == PANSUYOG_ALREADY_MOUNTED);
    check(pansuyog_file_attach(v, image, PANSUYOG_FILE_READ_WRITE, NULL) == PANSUYOG_ALREADY_MOUNTED);
    check(pansuyog_file_make(v, image, 64, 1, NULL) == PANSUYOG_ALREADY_MOUNTED && pansuyog_file_version(v) == 1);
}

/* A shape is looked at before the file's size, and only a file that is made on changes. */
static void refused_shapes(pansuyog_file *v, const char *image) {
    int fd = open(image, O_RDWR | O_CREAT | O_TRUNC, 0600);
    check(pansuyog_file_format_with(v, 64, 3, 64, 1) == PANSUYOG_INVAL && ftruncate(fd, (off_t)SECTOR * (256 + 64 * 64 - 1)) == 0);
    check(take(v, fd, 0) == 0 && pansuyog_file_format_with(v, 64, 3, 64, 3) == PANSUYOG_INVAL);
    check(pansuyog_file_format_with(v, 128, 3, 64, 3) == PANSUYOG_INVAL && pansuyog_file_format_with(v, 64, 4, 64, 1) == PANSUYOG_INVAL);
    check(pansuyog_file_format_with(v, 64, 3, 32, 1) == PANSUYOG_INVAL && pansuyog_file_format_with(v, 64, 3, 64, 8) == PANSUYOG_TOO_SMALL);
    check(pansuyog_file_mount(v) == PANSUYOG_NO_CHECKPOINT && pansuyog_file_format_with(v, 64, 2, 64, 8) == PANSUYOG_INVAL);
    check(pansuyog_file_format_with(v, 64, 2, 64, 1) == 0 && pansuyog_file_mount(v) == 0 && is_shape(v, 64, 2, 1));
    check(pansuyog_file_format_with(v, 64, 2, 64, 8) == PANSUYOG_ALREADY_MOUNTED && pansuyog_file_unmount(v) == 0);
    check(truncate(image, (off_t)SECTOR * (256 + 64 * 64)) == 0);
    pansuyog_file_abandon(v);
    check(pansuyog_file_attach(v, image, PANSUYOG_FILE_READ_ONLY, NULL) == 0);
    check(pansuyog_file_format_with(v, 64, 3, 64, 8) == PANSUYOG_READ_ONLY && pansuyog_file_mount(v) == 0 && is_shape(v, 64, 2, 1));
    pansuyog_file_abandon(v);
    check(pansuyog_file_attach(v, image, PANSUYOG_FILE_READ_WRITE, NULL) == 0 && pansuyog_file_format_with(v, 64, 3, 64, 64) == 0);
    check(pansuyog_file_mount(v) == 0 && is_shape(v, 64, 3, 64));
    pansuyog_file_abandon(v);
    check(unlink(image) == 0);
}

/* What is saved is there for another mount, and what isn't goes with an unmount. */
static void saving(pansuyog_file *v, const char *image) {
    char bytes[16];
    check(pansuyog_file_fsync(v, 9) == PANSUYOG_BAD_HANDLE && pansuyog_file_fsync(v, 0) == 0 && pansuyog_file_clean(v) == 0);
    check(pansuyog_file_create(v, PATH("/b")) == 1 && pansuyog_file_sync(v) == 0 && pansuyog_file_create(v, PATH("/c")) == 2);
    check(pansuyog_file_unmount(v) == 0 && pansuyog_file_unmount(v) == PANSUYOG_NOT_MOUNTED && pansuyog_file_mount(v) == 0);
    check(pansuyog_file_open(v, PATH("/b")) == 0 && pansuyog_file_open(v, PATH("/c")) == PANSUYOG_NO_ENTRY);
    check(pansuyog_file_create(v, PATH("/c")) == 1);
    pansuyog_file_abandon(v);
    unmounted(v);
    check(pansuyog_file_attach(v, image, PANSUYOG_FILE_READ_WRITE, NULL) == 0 && pansuyog_file_mount(v) == 0);
    check(pansuyog_file_open(v, PATH("/a")) == 0 && pansuyog_file_open(v, PATH("/c")) == PANSUYOG_NO_ENTRY);
    check(pansuyog_file_pread(v, 0, 0, bytes, sizeof bytes) == 12 && !memcmp(bytes + 10, "he", 2) && pansuyog_file_version(v) == 2);
}

enum { BLOCKS = 4000, PART = 125 };

/* Overwrites blocks at random, and saves each, until a cleaning is due. The file's blocks are `last`. */
static void wear(pansuyog_file *v, uint32_t file, unsigned char last[BLOCKS]) {
    unsigned char block[SECTOR];
    uint32_t writes = 0;
    for (; pansuyog_file_is_cleaning_due(v) == 0; writes++) {
        uint32_t place = chance(BLOCKS);
        last[place] = (unsigned char)(1 + writes % 255);
        memset(block, last[place], SECTOR);
        check(writes < 10000 && pansuyog_file_pwrite(v, file, (uint64_t)place * SECTOR, block, SECTOR) == SECTOR);
        check(pansuyog_file_sync(v) == 0);
    }
    check(writes > 0);
}

/* Passes of the cleaner are made until none is due. The file is as it was written. */
static void cleaning(pansuyog_file *v) {
    static unsigned char part[PART * SECTOR], last[BLOCKS];
    int32_t file = pansuyog_file_create(v, PATH("/large"));
    uint32_t passes = 0;
    memset(part, 1, sizeof part);
    memset(last, 1, sizeof last);
    check(file >= 0);
    for (uint64_t at = 0; at < BLOCKS * SECTOR; at += sizeof part)
        check(pansuyog_file_pwrite(v, (uint32_t)file, at, part, sizeof part) == sizeof part);
    check(pansuyog_file_sync(v) == 0 && pansuyog_file_is_cleaning_due(v) == 0 && pansuyog_file_clean_once(v) == 0);
    wear(v, (uint32_t)file, last);
    for (; pansuyog_file_is_cleaning_due(v) == 1; passes++) check(passes < 128 / 8 && pansuyog_file_clean_once(v) == 0);
    check(passes > 0 && pansuyog_file_unmount(v) == 0 && pansuyog_file_mount(v) == 0 && pansuyog_file_open(v, PATH("/large")) == 0);
    for (uint64_t block = 0; block < BLOCKS; block++) {
        check(pansuyog_file_pread(v, 0, block * SECTOR, part, SECTOR) == SECTOR);
        check(part[0] == last[block] && part[SECTOR - 1] == last[block]);
    }
    check(pansuyog_file_unlink(v, PATH("/large")) == 0 && pansuyog_file_sync(v) == 0);
}

/* A volume that is only read takes no call that may write. */
static void reading(pansuyog_file *v, const char *image) {
    const int32_t no = PANSUYOG_READ_ONLY;
    pansuyog_stat_t stat;
    pansuyog_space_t space;
    char bytes[16];
    check(pansuyog_file_attach(v, image, PANSUYOG_FILE_READ_ONLY, NULL) == 0 && pansuyog_file_format(v, 128, 1) == no);
    check(pansuyog_file_mount(v) == 0 && pansuyog_file_open(v, PATH("/a")) == 0);
    check(pansuyog_file_create(v, PATH("/n")) == no && pansuyog_file_mkdir(v, PATH("/n")) == no);
    check(pansuyog_file_pwrite(v, 0, 0, "x", 1) == no && pansuyog_file_truncate(v, 0, 0) == no);
    check(pansuyog_file_rmdir(v, PATH("/d")) == no && pansuyog_file_unlink(v, PATH("/a")) == no);
    check(pansuyog_file_link(v, PATH("/a"), PATH("/n")) == no && pansuyog_file_rename(v, PATH("/a"), PATH("/n")) == no);
    check(pansuyog_file_symlink(v, PATH("/a"), PATH("/n")) == no && pansuyog_file_widen(v, PATH("/d")) == no);
    check(pansuyog_file_fsync(v, 0) == no && pansuyog_file_sync(v) == no && pansuyog_file_clean(v) == no);
    check(pansuyog_file_clean_once(v) == no && pansuyog_file_upgrade(v) == no);
    check(pansuyog_file_record_begin(v, 10, 2) == no && pansuyog_file_record_line(v, "2026-01-01", "a", 1) == no);
    check(pansuyog_file_record_save(v) == no);
    check(pansuyog_file_pread(v, 0, 0, bytes, sizeof bytes) == 12 && pansuyog_file_readlink(v, PATH("/l"), bytes, 16) == 4);
    check(pansuyog_file_stat(v, PATH("/a"), &stat) == 0 && stat.size == 12 && pansuyog_file_lstat(v, PATH("/l"), &stat) == 0);
    check(pansuyog_file_list(v, PATH("/d")) == 1 && pansuyog_file_space(v, &space) == 0 && pansuyog_file_version(v) == 2);
    check(pansuyog_file_is_cleaning_due(v) == 0 && pansuyog_file_close(v, 0) == 0 && pansuyog_file_unmount(v) == 0);
    pansuyog_file_abandon(v);
}

/* What another program is answered that opens the image. */
static int32_t answer_beside(const char *path, uint32_t flags) {
    int status;
    pid_t child = fork();
    check(child >= 0);
    if (child == 0) {
        pansuyog_file other;
        check(pansuyog_file_new(&other) == 0);
        int32_t code = pansuyog_file_attach(&other, path, flags, NULL);
        if (code == 0) code = pansuyog_file_mount(&other);
        pansuyog_file_free(other);
        _exit(-code);
    }
    check(waitpid(child, &status, 0) == child && WIFEXITED(status));
    return -WEXITSTATUS(status);
}

/* Who reads has an image beside others who read, and nobody beside one who writes. */
static void beside(pansuyog_file *v, const char *image) {
    check(pansuyog_file_attach(v, image, PANSUYOG_FILE_READ_ONLY, NULL) == 0 && pansuyog_file_mount(v) == 0);
    check(answer_beside(image, PANSUYOG_FILE_READ_ONLY) == 0 && answer_beside(image, PANSUYOG_FILE_READ_WRITE) == PANSUYOG_IN_USE);
    pansuyog_file_abandon(v);
    check(answer_beside(image, PANSUYOG_FILE_READ_WRITE) == 0);
    check(pansuyog_file_attach(v, image, PANSUYOG_FILE_READ_WRITE, NULL) == 0 && pansuyog_file_mount(v) == 0);
    check(answer_beside(image, PANSUYOG_FILE_READ_ONLY) == PANSUYOG_IN_USE);
    check(answer_beside(image, PANSUYOG_FILE_READ_WRITE) == PANSUYOG_IN_USE);
    check(pansuyog_file_unmount(v) == 0 && answer_beside(image, PANSUYOG_FILE_READ_ONLY) == PANSUYOG_IN_USE);
    pansuyog_file_abandon(v);
}

/* A descriptor that can only be read takes no change to the medium: the call says so, and what was there stays. A mount tries the writes
 * that were refused once more, and the file that is taken anew has none of them. */
static void writing_nowhere(pansuyog_file *v, const char *image) {
    check(take(v, open(image, O_RDONLY), 0) == 0 && pansuyog_file_mount(v) == 0 && pansuyog_file_create(v, PATH("/n")) == 0);
    check(pansuyog_file_errno(v) == 0 && pansuyog_file_sync(v) == PANSUYOG_HALTED && pansuyog_file_errno(v) == EBADF);
    check(pansuyog_file_sync(v) == PANSUYOG_HALTED && pansuyog_file_open(v, PATH("/a")) == PANSUYOG_HALTED);
    check(pansuyog_file_unmount(v) == 0 && pansuyog_file_mount(v) == PANSUYOG_DEVICE && pansuyog_file_errno(v) == EBADF);
    pansuyog_file_abandon(v);
    check(take(v, open(image, O_RDONLY), 0) == 0 && pansuyog_file_errno(v) == 0 && pansuyog_file_mount(v) == 0);
    check(pansuyog_file_open(v, PATH("/n")) == PANSUYOG_NO_ENTRY && pansuyog_file_open(v, PATH("/a")) == 0);
    pansuyog_file_abandon(v);
    check(pansuyog_file_errno(v) == 0);
}

/* Whether a call was refused so by the system. */
static int is_refused(int32_t code, const pansuyog_failed_t *failed, enum pansuyog_failed_call call, int error) {
    return code == PANSUYOG_DEVICE && failed->call == call && failed->error == error;
}

/* Images that aren't opened or made. */
static void refusals(pansuyog_file *v, const char *image, const char *made) {
    static char long_name[5000];
    pansuyog_failed_t failed;
    memset(long_name, 'a', sizeof long_name - 1);
    check(is_refused(pansuyog_file_make(v, long_name, 64, 2, &failed), &failed, PANSUYOG_AT_OPEN, ENAMETOOLONG));
    check(is_refused(pansuyog_file_attach(v, made, PANSUYOG_FILE_READ_ONLY, &failed), &failed, PANSUYOG_AT_OPEN, ENOENT));
    check(is_refused(pansuyog_file_attach(v, ".", PANSUYOG_FILE_READ_ONLY, &failed), &failed, PANSUYOG_AT_OPEN, EISDIR));
    check(is_refused(pansuyog_file_attach(v, "/dev/null", PANSUYOG_FILE_READ_WRITE, &failed), &failed, PANSUYOG_AT_OPEN, ENOTBLK));
    check(pansuyog_file_attach(v, image, 2, NULL) == PANSUYOG_INVAL && pansuyog_file_mount(v) == PANSUYOG_INVAL);
    check(pansuyog_file_make(v, made, 0, 2, NULL) == PANSUYOG_INVAL && pansuyog_file_make(v, made, 65, 2, NULL) == PANSUYOG_INVAL);
    check(pansuyog_file_make(v, made, 56, 2, NULL) == PANSUYOG_INVAL && pansuyog_file_make(v, made, 1032, 2, NULL) == PANSUYOG_INVAL);
    check(pansuyog_file_make(v, made, 64, 0, NULL) == PANSUYOG_INVAL && pansuyog_file_make(v, made, 64, 3, NULL) == PANSUYOG_INVAL);
    check(pansuyog_file_make(v, image, 64, 2, &failed) == PANSUYOG_EXIST && failed.call == PANSUYOG_NO_CALL);
    check(access(made, F_OK) < 0 && errno == ENOENT && pansuyog_file_mount(v) == PANSUYOG_INVAL);
}

/* An image is made, and held from then on. Another volume of the program is beside it. */
static void images(pansuyog_file *v, const char *image) {
    char made[4096];
    pansuyog_failed_t failed;
    pansuyog_file other;
    snprintf(made, sizeof made, "%s.other", image);
    refusals(v, image, made);
    check(pansuyog_file_make(v, made, 64, 1, &failed) == 0 && failed.call == PANSUYOG_NO_CALL && access(made, F_OK) == 0);
    check(answer_beside(made, PANSUYOG_FILE_READ_ONLY) == PANSUYOG_IN_USE && pansuyog_file_mount(v) == 0 && pansuyog_file_version(v) == 1);
    check(pansuyog_file_new(&other) == 0);
    check(pansuyog_file_attach(&other, made, PANSUYOG_FILE_READ_ONLY, &failed) == PANSUYOG_IN_USE && failed.call == PANSUYOG_AT_LOCK);
    check(pansuyog_file_attach(&other, image, PANSUYOG_FILE_READ_WRITE, NULL) == 0 && pansuyog_file_mount(&other) == 0);
    check(pansuyog_file_version(&other) == 2 && pansuyog_file_open(&other, PATH("/a")) == 0);
    check(pansuyog_file_create(v, PATH("/o")) == 0 && pansuyog_file_sync(v) == 0);
    pansuyog_file_free(other);
    pansuyog_file_abandon(v);
    check(answer_beside(made, PANSUYOG_FILE_READ_WRITE) == 0 && unlink(made) == 0);
}

int main(int argc, char **argv) {
    char shaped[4096];
    check(argc == 2);
    int fd = open(argv[1], O_RDWR | O_CREAT | O_TRUNC, 0600);
    check(fd >= 0 && ftruncate(fd, (off_t)SECTOR * SECTORS(128)) == 0 && close(fd) == 0);
    pansuyog_file volume;
    check(pansuyog_file_new(&volume) == 0);
    beginning(&volume, argv[1]);
    making(&volume, argv[1]);
    files(&volume);
    names(&volume);
    looks(&volume);
    saving(&volume, argv[1]);
    cleaning(&volume);
    pansuyog_file_abandon(&volume);
    reading(&volume, argv[1]);
    beside(&volume, argv[1]);
    writing_nowhere(&volume, argv[1]);
    images(&volume, argv[1]);
    check(snprintf(shaped, sizeof shaped, "%s.shaped", argv[1]) > 0);
    refused_shapes(&volume, shaped);
    shapes(shaped);
    recording(shaped);
    int32_t last = take(&volume, fd = open(argv[1], O_RDWR), 0);
    pansuyog_file_free(volume);
    check(last == 0 && fcntl(fd, F_GETFD) < 0);
    texts();
    puts("each call over a file answers as the header says");
    return 0;
}
