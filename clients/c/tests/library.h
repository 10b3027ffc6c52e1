/* The library that a test is built for: with OVER_FILE the one over a file, else the one with orders and its driver. */
#ifndef LIBRARY_H
#define LIBRARY_H

#include "check.h"

#ifdef OVER_FILE
#include "../pansuyog_file.h"
#define CALL(name) pansuyog_file_##name
typedef pansuyog_file volume_t;
#else
#include "../pansuyog_fd.h"
#define CALL(name) pansuyog_##name
typedef pansuyog volume_t;
#endif

/* A volume that is mounted from an image. */
struct image {
    volume_t volume;
    int fd; /* of the image, with orders alone */
};

#ifdef OVER_FILE

static inline int32_t make_image(const char *path, uint32_t segments, uint32_t version) {
    pansuyog_file volume;
    check(pansuyog_file_new(&volume) == 0);
    int32_t code = pansuyog_file_make(&volume, path, segments, version, NULL);
    pansuyog_file_free(volume);
    return code;
}

static inline int32_t make_image_with(const char *path, pansuyog_shape_t it) {
    pansuyog_file volume;
    check(pansuyog_file_new(&volume) == 0);
    int32_t code = pansuyog_file_make_with(&volume, path, it.segments, it.version, it.segment_sectors, it.unit, NULL);
    pansuyog_file_free(volume);
    return code;
}

static inline int32_t mount_image(struct image *image, const char *path, int is_read_only) {
    check(pansuyog_file_new(&image->volume) == 0);
    int32_t code = pansuyog_file_attach(&image->volume, path, is_read_only ? PANSUYOG_FILE_READ_ONLY : PANSUYOG_FILE_READ_WRITE, NULL);
    return code == 0 ? pansuyog_file_mount(&image->volume) : code;
}

static inline int32_t remount_image(struct image *image) {
    return pansuyog_file_mount(&image->volume);
}

static inline int32_t save_image(struct image *image) {
    return pansuyog_file_sync(&image->volume);
}

static inline void drop_image(struct image *image) {
    pansuyog_file_free(image->volume);
}

#else

static inline int32_t make_image(const char *path, uint32_t segments, uint32_t version) {
    return pansuyog_make(path, segments, version, NULL);
}

static inline int32_t make_image_with(const char *path, pansuyog_shape_t it) {
    return pansuyog_make_with(path, it.segments, it.version, it.segment_sectors, it.unit, NULL);
}

static inline int32_t mount_image(struct image *image, const char *path, int is_read_only) {
    check(pansuyog_new(&image->volume) == 0);
    image->fd = pansuyog_open_fd(path, is_read_only ? LOCK_SH : LOCK_EX, NULL);
    return image->fd < 0 ? image->fd : pansuyog_mount_fd(&image->volume, image->fd, ROOM, NULL);
}

static inline int32_t remount_image(struct image *image) {
    return pansuyog_mount(&image->volume, ROOM);
}

static inline int32_t save_image(struct image *image) {
    return pansuyog_save_fd(&image->volume, image->fd, NULL);
}

static inline void drop_image(struct image *image) {
    pansuyog_free(image->volume);
    close(image->fd);
}

#endif
#endif
