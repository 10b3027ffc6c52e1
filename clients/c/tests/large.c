/* A volume of 1,024 segments in a new file, with a file of 3 MB that stays as it is.
 *     large make IMAGE     makes both
 *     large look IMAGE     looks at the file */
#include "library.h"

enum { PIECE = 30000, PIECES = 100 };

int main(int argc, char **argv) {
    static unsigned char piece[PIECE], found[PIECE];
    struct image image;
    struct stat status;
    check(argc == 3);
    int makes = strcmp(argv[1], "make") == 0;
    if (makes) check(make_image(argv[2], 1024, 2) == 0 && make_image(argv[2], 64, 1) == PANSUYOG_EXIST);
    check(mount_image(&image, argv[2], !makes) == 0 && stat(argv[2], &status) == 0 && status.st_size == (off_t)SECTOR * SECTORS(1024));
    int32_t file = makes ? CALL(create)(&image.volume, PATH("/kept")) : CALL(open)(&image.volume, PATH("/kept"));
    check(file >= 0);
    for (int number = 0; number < PIECES; number++) {
        memset(piece, 1 + number, PIECE);
        if (makes) check(CALL(pwrite)(&image.volume, (uint32_t)file, (uint64_t)number * PIECE, piece, PIECE) == PIECE);
        else check(CALL(pread)(&image.volume, (uint32_t)file, (uint64_t)number * PIECE, found, PIECE) == PIECE);
        check(makes || !memcmp(piece, found, PIECE));
    }
    if (makes) check(save_image(&image) == 0);
    drop_image(&image);
    return 0;
}
