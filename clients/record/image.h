/* The image: it is made, opened, and moved aside where it is damaged. */
#ifndef RECORD_IMAGE_H
#define RECORD_IMAGE_H

#include "pansuyog_file.h"
#include <stdbool.h>

struct image {
    const char *path;
    pansuyog_file volume;
    pansuyog_failed_t failed; /* what the system refused as the image was made or opened */
    int second; /* another descriptor of the image since before it was mounted, or -1 */
};

/* What a program ends with. */
enum { STATUS_TRY_AGAIN = 1, STATUS_RESTART = 2 };

/* Mounts the volume of an image, which is made where there is none: 0, or the status to end with, and then why was told. In both cases
 * image_close gives back all. */
int image_open(struct image *image, const char *path, uint32_t size, bool is_sparse);
/* Tells why a call was refused: the status to end with. */
int image_refuse(struct image *image, int32_t code);
/* Writes all of these bytes to a file of the host: false with errno where it can't. */
bool image_write_all(int fd, const char *bytes, size_t count, off_t offset);
/* Saves nothing. */
void image_close(struct image *image);

#endif
