/* Memory is refused, at each call for it in turn: the call says so, and what was saved stays.
 * It is linked with --wrap=malloc and --wrap=realloc.
 *     memory STEP     one call in STEP */
#include "../pansuyog.h"
#include "check.h"
#include "refusing.h"

enum { SEGMENTS = 64 };

static unsigned char image[SECTORS(SEGMENTS)][SECTOR];

/* Carries out what waits, in the image. */
static void carry(pansuyog *volume) {
    unsigned char bytes[SECTOR];
    uint32_t sector = 0;
    for (uint64_t number = pansuyog_carried(volume); number < pansuyog_told(volume); number++) {
        int32_t write = pansuyog_order(volume, number, &sector, bytes, SECTOR);
        check(write >= 0);
        if (write) memcpy(image[sector], bytes, SECTOR);
    }
    check(pansuyog_done(volume) == 0);
}

/* Calls of every kind, up to the first that is refused: its answer, or 0. A room of 8 orders has to grow. */
static int32_t calls(pansuyog *volume) {
    char bytes[600] = {1};
    int32_t code = pansuyog_begin(volume, SECTORS(SEGMENTS));
    if (code < 0) return code;
    check(pansuyog_give(volume, 0, image, sizeof image) == 0);
    if ((code = pansuyog_mount(volume, 8)) < 0) return code;
    if ((code = pansuyog_mkdir(volume, PATH("/d"))) < 0) return code;
    int32_t handle = pansuyog_create(volume, PATH("/d/a"));
    if (handle < 0) return handle;
    if ((code = pansuyog_pwrite(volume, (uint32_t)handle, 300, bytes, sizeof bytes)) < 0) return code;
    if ((code = pansuyog_pread(volume, (uint32_t)handle, 0, bytes, sizeof bytes)) < 0) return code;
    if ((code = pansuyog_symlink(volume, PATH("a"), PATH("/d/l"))) < 0) return code;
    if ((code = pansuyog_readlink(volume, PATH("/d/l"), bytes, sizeof bytes)) < 0) return code;
    if ((code = pansuyog_list(volume, PATH("/d"))) < 0) return code;
    if ((code = pansuyog_rename(volume, PATH("/d/a"), PATH("/b"))) < 0) return code;
    if ((code = pansuyog_unlink(volume, PATH("/d/l"))) < 0) return code;
    if ((code = pansuyog_rmdir(volume, PATH("/d"))) < 0) return code;
    if ((code = pansuyog_close(volume, (uint32_t)handle)) < 0) return code;
    if ((code = pansuyog_sync(volume)) < 0) return code;
    if ((code = pansuyog_record_begin(volume, 1, 1)) < 0) return code;
    if ((code = pansuyog_record_line(volume, "2026-01-01", "one", 3)) < 0) return code;
    if ((code = pansuyog_record_line(volume, "2026-01-02", "two", 3)) < 0) return code;
    if ((code = pansuyog_record_begin(volume, 9, 1)) < 0) return code;
    if ((code = pansuyog_record_line(volume, "2026-01-02", "three", 5)) < 0) return code;
    return pansuyog_record_save(volume);
}

int main(int argc, char **argv) {
    check(argc == 2 && atoi(argv[1]) > 0);
    pansuyog volume, first;
    calls_left = 0;
    volume.inside = NULL;
    check(pansuyog_new(&volume) == PANSUYOG_NO_MEMORY && volume.inside == NULL);
    calls_left = -1;
    check(pansuyog_new(&first) == 0 && pansuyog_begin(&first, SECTORS(SEGMENTS)) == 0);
    /* No memory for the first order; then none for 8 orders on the device that is there. */
    calls_left = 0;
    check(pansuyog_format(&first, SEGMENTS, 1, 0) == PANSUYOG_NO_MEMORY);
    calls_left = 0;
    check(pansuyog_format(&first, SEGMENTS, 1, 8) == PANSUYOG_NO_MEMORY);
    calls_left = -1;
    check(pansuyog_format(&first, SEGMENTS, 1, 0) == 0);
    carry(&first);
    check(pansuyog_mount(&first, ROOM) == 0 && pansuyog_create(&first, PATH("/kept")) == 0 && pansuyog_sync(&first) == 0);
    carry(&first);
    pansuyog_free(first);
    int enough = 0;
    for (long left = 0; !enough; left += atoi(argv[1])) {
        check(pansuyog_new(&volume) == 0);
        calls_left = left;
        int32_t code = calls(&volume);
        /* No call for memory was refused any more. */
        enough = calls_left >= 0;
        calls_left = -1;
        check(!enough || code == 0);
        check(code == 0 || code == PANSUYOG_NO_MEMORY || code == PANSUYOG_HALTED || code == PANSUYOG_DEVICE);
        pansuyog_abandon(&volume);
        check(pansuyog_begin(&volume, SECTORS(SEGMENTS)) == 0 && pansuyog_give(&volume, 0, image, sizeof image) == 0);
        check(pansuyog_mount(&volume, ROOM) == 0 && pansuyog_open(&volume, PATH("/kept")) == 0);
        pansuyog_free(volume);
        check(left < 10000);
    }
    printf("%u calls for memory were refused, and what was saved stays\n", refused);
    return 0;
}
