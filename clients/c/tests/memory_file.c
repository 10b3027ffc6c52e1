/* Memory is refused to a volume in a file, at each call for it in turn: the call says so or does without, the volume goes on,
 * and what was saved stays.
 * It is linked with --wrap=malloc and --wrap=realloc.
 *     memory_file STEP IMAGE     one call in STEP */
#ifndef OVER_FILE
#define OVER_FILE
#endif
#include "refusing.h"
#include "library.h"

/* Calls of every kind, up to the first that is refused: its answer, or 0. */
static int32_t calls(pansuyog_file *volume, const char *image) {
    char bytes[600] = {1};
    int32_t code = pansuyog_file_attach(volume, image, PANSUYOG_FILE_READ_WRITE, NULL);
    if (code < 0) return code;
    if ((code = pansuyog_file_mount(volume)) < 0) return code;
    if ((code = pansuyog_file_mkdir(volume, PATH("/d"))) < 0) return code;
    int32_t handle = pansuyog_file_create(volume, PATH("/d/a"));
    if (handle < 0) return handle;
    if ((code = pansuyog_file_pwrite(volume, (uint32_t)handle, 300, bytes, sizeof bytes)) < 0) return code;
    if ((code = pansuyog_file_pread(volume, (uint32_t)handle, 0, bytes, sizeof bytes)) < 0) return code;
    if ((code = pansuyog_file_symlink(volume, PATH("a"), PATH("/d/l"))) < 0) return code;
    if ((code = pansuyog_file_readlink(volume, PATH("/d/l"), bytes, sizeof bytes)) < 0) return code;
    if ((code = pansuyog_file_list(volume, PATH("/d"))) < 0) return code;
    if ((code = pansuyog_file_rename(volume, PATH("/d/a"), PATH("/b"))) < 0) return code;
    if ((code = pansuyog_file_unlink(volume, PATH("/d/l"))) < 0) return code;
    if ((code = pansuyog_file_rmdir(volume, PATH("/d"))) < 0) return code;
    if ((code = pansuyog_file_close(volume, (uint32_t)handle)) < 0) return code;
    if ((code = pansuyog_file_sync(volume)) < 0) return code;
    if ((code = pansuyog_file_unlink(volume, PATH("/b"))) < 0) return code;
    if ((code = pansuyog_file_record_begin(volume, 1, 1)) < 0) return code;
    if ((code = pansuyog_file_record_line(volume, "2026-01-01", "one", 3)) < 0) return code;
    if ((code = pansuyog_file_record_line(volume, "2026-01-02", "two", 3)) < 0) return code;
    if ((code = pansuyog_file_record_begin(volume, 9, 1)) < 0) return code;
    if ((code = pansuyog_file_record_line(volume, "2026-01-02", "three", 5)) < 0) return code;
    return pansuyog_file_record_save(volume);
}

int main(int argc, char **argv) {
    check(argc == 3 && atoi(argv[1]) > 0);
    pansuyog_file volume;
    calls_left = 0;
    volume.inside = NULL;
    check(pansuyog_file_new(&volume) == PANSUYOG_NO_MEMORY && volume.inside == NULL);
    calls_left = -1;
    check((unlink(argv[2]) == 0 || errno == ENOENT) && pansuyog_file_new(&volume) == 0);
    check(pansuyog_file_make(&volume, argv[2], 64, 1, NULL) == 0 && pansuyog_file_mount(&volume) == 0);
    check(pansuyog_file_create(&volume, PATH("/kept")) == 0 && pansuyog_file_sync(&volume) == 0);
    pansuyog_file_free(volume);
    int enough = 0;
    unsigned told = 0;
    for (long left = 0; !enough; left += atoi(argv[1])) {
        check(pansuyog_file_new(&volume) == 0 && left < 10000);
        calls_left = left;
        int32_t code = calls(&volume, argv[2]);
        /* No call for memory was refused any more. */
        enough = calls_left >= 0;
        calls_left = -1;
        /* What a volume keeps to be fast it does without. */
        check(code == 0 || (code == PANSUYOG_NO_MEMORY && !enough));
        told += code < 0;
        /* A volume that was mounted by then goes on. */
        if (pansuyog_file_version(&volume) > 0) check(pansuyog_file_create(&volume, PATH("/e")) >= 0);
        pansuyog_file_abandon(&volume);
        check(pansuyog_file_attach(&volume, argv[2], PANSUYOG_FILE_READ_WRITE, NULL) == 0 && pansuyog_file_mount(&volume) == 0);
        check(pansuyog_file_open(&volume, PATH("/kept")) == 0);
        pansuyog_file_free(volume);
    }
    check(told > refused / 4);
    printf("%u calls for memory were refused, and what was saved stays\n", refused);
    return 0;
}
