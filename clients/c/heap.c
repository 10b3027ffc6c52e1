/* The heap of the library: malloc, realloc and free of the program that it is linked with. */
#include <stdbool.h>
#include <stddef.h>
#include <stdlib.h>

struct tried {
    bool ok;
    void *at;
};

static char none;

static struct tried tried(void *at) {
    return (struct tried){at != NULL, at ? at : &none};
}

/* A block of no bytes is asked for as one of its alignment, which isn't 0. */
struct tried rattle_alloc(size_t size, size_t align) {
    return tried(malloc(size ? size : align));
}

struct tried rattle_realloc(void *at, size_t kept, size_t size, size_t align) {
    (void)kept;
    return tried(realloc(at, size ? size : align));
}

void rattle_dealloc(void *at) {
    free(at);
}
