/* Puts a record behind those of /log, in a volume in a file, and shows them all. Where no file is the volume is made.
 *     example FILE RECORD */
#include "pansuyog_fd.h"

enum { SEGMENTS = 64, ROOM = 1100 };

/* Opens and locks a volume that is there, or a new one. Nothing else that is there is changed. */
static int32_t open_volume(const char *path, pansuyog_failed_t *failed) {
    int32_t code = pansuyog_make(path, SEGMENTS, 2, failed);
    return code == PANSUYOG_OK || code == PANSUYOG_EXIST ? pansuyog_open_fd(path, LOCK_EX, failed) : code;
}

/* Once it is 0 no loss of power takes the record away. */
static int32_t append(pansuyog *volume, int fd, uint32_t log, const char *record, pansuyog_failed_t *failed) {
    pansuyog_stat_t stat;
    int32_t code = pansuyog_stat(volume, "/log", 4, &stat);
    if (code == 0) code = pansuyog_pwrite(volume, log, stat.size, record, strlen(record));
    if (code >= 0) code = pansuyog_pwrite(volume, log, stat.size + (uint64_t)code, "\n", 1);
    return code < 0 ? code : pansuyog_save_fd(volume, fd, failed);
}

static int32_t show(pansuyog *volume, uint32_t log) {
    static char bytes[65536];
    int32_t count;
    for (uint64_t at = 0; (count = pansuyog_pread(volume, log, at, bytes, sizeof bytes)) > 0; at += (uint64_t)count)
        fwrite(bytes, 1, (size_t)count, stdout);
    return count;
}

int main(int argc, char **argv) {
    pansuyog volume;
    pansuyog_failed_t failed;
    if (argc != 3) {
        fputs("usage: example FILE RECORD\n", stderr);
        return 2;
    }
    int32_t fd = open_volume(argv[1], &failed), code = fd < 0 ? fd : pansuyog_new(&volume);
    if (code < 0) {
        pansuyog_perror(argv[1], code, &failed);
        return 1;
    }
    code = pansuyog_mount_fd(&volume, fd, ROOM, &failed);
    int32_t log = code < 0 ? code : pansuyog_open(&volume, "/log", 4);
    if (log == PANSUYOG_NO_ENTRY) log = pansuyog_create(&volume, "/log", 4);
    code = log < 0 ? log : append(&volume, fd, (uint32_t)log, argv[2], &failed);
    if (code == 0) code = show(&volume, (uint32_t)log);
    if (code < 0) pansuyog_perror(argv[1], code, &failed);
    pansuyog_free(volume);
    return code < 0;
}
