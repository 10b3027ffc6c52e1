/* Puts a record behind those of /log, in a volume in a file, and shows them all. Where no file is the volume is made.
 *     example_file FILE RECORD */
#include "pansuyog_file.h"

enum { SEGMENTS = 64 };

/* Mounts a volume that is there, or a new one. Nothing else that is there is changed. */
static int32_t mount_volume(pansuyog_file *volume, const char *path, pansuyog_failed_t *failed) {
    int32_t code = pansuyog_file_make(volume, path, SEGMENTS, 2, failed);
    if (code == PANSUYOG_EXIST) code = pansuyog_file_attach(volume, path, PANSUYOG_FILE_READ_WRITE, failed);
    return code == PANSUYOG_OK ? pansuyog_file_mount(volume) : code;
}

/* Once it is 0 no loss of power takes the record away. */
static int32_t append(pansuyog_file *volume, uint32_t log, const char *record) {
    pansuyog_stat_t stat;
    int32_t code = pansuyog_file_stat(volume, "/log", 4, &stat);
    if (code == 0) code = pansuyog_file_pwrite(volume, log, stat.size, record, strlen(record));
    if (code >= 0) code = pansuyog_file_pwrite(volume, log, stat.size + (uint64_t)code, "\n", 1);
    return code < 0 ? code : pansuyog_file_sync(volume);
}

static int32_t show(pansuyog_file *volume, uint32_t log) {
    static char bytes[65536];
    int32_t count;
    for (uint64_t at = 0; (count = pansuyog_file_pread(volume, log, at, bytes, sizeof bytes)) > 0; at += (uint64_t)count)
        fwrite(bytes, 1, (size_t)count, stdout);
    return count;
}

static int32_t run(pansuyog_file *volume, const char *path, const char *record, pansuyog_failed_t *failed) {
    int32_t code = mount_volume(volume, path, failed);
    if (code < 0) return code;
    int32_t log = pansuyog_file_open(volume, "/log", 4);
    if (log == PANSUYOG_NO_ENTRY) log = pansuyog_file_create(volume, "/log", 4);
    code = log < 0 ? log : append(volume, (uint32_t)log, record);
    return code < 0 ? code : show(volume, (uint32_t)log);
}

int main(int argc, char **argv) {
    pansuyog_file volume;
    pansuyog_failed_t failed;
    if (argc != 3) {
        fputs("usage: example_file FILE RECORD\n", stderr);
        return 2;
    }
    if (pansuyog_file_new(&volume) < 0) {
        fputs("there isn't enough memory\n", stderr);
        return 1;
    }
    int32_t code = run(&volume, argv[1], argv[2], &failed);
    if (code < 0) pansuyog_file_perror(argv[1], code, &volume, &failed);
    pansuyog_file_free(volume);
    return code < 0;
}
