/* What the library over a file needs of the system besides its C library: why a call was refused. */
#include <errno.h>
#include <stdint.h>

int32_t rattle_errno(void) {
    return errno;
}
