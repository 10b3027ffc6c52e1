/* A program that has both libraries: a volume of each is open at once, and each finds what the other saved.
 *     linked IMAGE */
#define _GNU_SOURCE
#include "../pansuyog_fd.h"
#include "../pansuyog_file.h"
#include "check.h"

int main(int argc, char **argv) {
    char other_image[4096], bytes[8];
    pansuyog volume;
    pansuyog_file other;
    pansuyog_failed_t failed;
    check(argc == 2 && snprintf(other_image, sizeof other_image, "%s.other", argv[1]) < (int)sizeof other_image);
    check(pansuyog_new(&volume) == 0 && pansuyog_file_new(&other) == 0);
    check(pansuyog_make(argv[1], 64, 2, NULL) == 0 && pansuyog_file_make(&other, other_image, 64, 2, NULL) == 0);
    int fd = pansuyog_open_fd(argv[1], LOCK_EX, NULL);
    check(fd >= 0 && pansuyog_mount_fd(&volume, fd, ROOM, NULL) == 0 && pansuyog_file_mount(&other) == 0);
    check(pansuyog_create(&volume, PATH("/a")) == 0 && pansuyog_file_create(&other, PATH("/b")) == 0);
    check(pansuyog_pwrite(&volume, 0, 0, "orders", 6) == 6 && pansuyog_file_pwrite(&other, 0, 0, "file", 4) == 4);
    check(pansuyog_save_fd(&volume, fd, NULL) == 0 && pansuyog_file_sync(&other) == 0);
    /* Each keeps the other from its image. */
    check(pansuyog_open_fd(other_image, LOCK_SH, &failed) == PANSUYOG_DEVICE && failed.call == PANSUYOG_AT_LOCK);
    pansuyog_file_abandon(&other);
    check(pansuyog_file_attach(&other, argv[1], PANSUYOG_FILE_READ_ONLY, NULL) == PANSUYOG_IN_USE && close(fd) == 0);
    pansuyog_abandon(&volume);
    check(pansuyog_file_attach(&other, argv[1], PANSUYOG_FILE_READ_WRITE, NULL) == 0 && pansuyog_file_mount(&other) == 0);
    check(pansuyog_file_open(&other, PATH("/a")) == 0 && pansuyog_file_pread(&other, 0, 0, bytes, 8) == 6 && !memcmp(bytes, "orders", 6));
    fd = pansuyog_open_fd(other_image, LOCK_EX, NULL);
    check(fd >= 0 && pansuyog_mount_fd(&volume, fd, ROOM, NULL) == 0 && pansuyog_open(&volume, PATH("/b")) == 0);
    check(pansuyog_pread(&volume, 0, 0, bytes, 8) == 4 && !memcmp(bytes, "file", 4) && close(fd) == 0);
    pansuyog_file_free(other);
    pansuyog_free(volume);
    check(unlink(argv[1]) == 0 && unlink(other_image) == 0);
    puts("both libraries serve one program, and each finds what the other saved");
    return 0;
}
