/* Memory that is refused: for programs that are linked with --wrap=malloc and --wrap=realloc. */
#ifndef REFUSING_H
#define REFUSING_H

#include <stddef.h>

/* So many calls for memory are left before one is refused; none is below 0. */
static long calls_left = -1;
static unsigned refused;

void *__real_malloc(size_t size);
void *__real_realloc(void *at, size_t size);

static int refuses(void) {
    int now = calls_left >= 0 && calls_left-- == 0;
    refused += (unsigned)now;
    return now;
}

void *__wrap_malloc(size_t size) {
    return refuses() ? NULL : __real_malloc(size);
}

void *__wrap_realloc(void *at, size_t size) {
    return refuses() ? NULL : __real_realloc(at, size);
}

#endif
