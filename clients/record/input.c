#include "input.h"
#include "serial.h"
#include <errno.h>
#include <fcntl.h>
#include <poll.h>
#include <stdio.h>
#include <stdlib.h>
#include <string.h>
#include <sys/stat.h>
#include <unistd.h>

enum { CHUNK = 65536 };

/* What stands in the input as a signal comes is read too, but not more than a pipe takes at most. */
enum { CHUNKS_BEHIND_A_SIGNAL = 16 };

static bool refuse(const char *name, const char *why) {
    fprintf(stderr, "%s: %s\n", name, why);
    return false;
}

/* Both ends of a FIFO. The one that is read is opened first, without waiting for a writer. */
static bool open_fifo(struct input *input, const char *path) {
    struct stat found;
    input->fd = open(path, O_RDONLY | O_NONBLOCK | O_CLOEXEC);
    if (input->fd < 0 || fstat(input->fd, &found) != 0) return refuse(path, strerror(errno));
    if (!S_ISFIFO(found.st_mode)) return refuse(path, "it is no FIFO");
    input->held = open(path, O_WRONLY | O_NONBLOCK | O_CLOEXEC);
    return input->held >= 0 || refuse(path, strerror(errno));
}

static bool open_terminal(struct input *input, const char *path, uint32_t baud) {
    input->fd = serial_open(path, baud);
    input->never_ends = true;
    return input->fd >= 0 || refuse(path, strerror(errno));
}

static bool open_standard(struct input *input) {
    struct stat found;
    input->fd = STDIN_FILENO;
    if (fstat(STDIN_FILENO, &found) != 0) return refuse(input->name, strerror(errno));
    input->waits = S_ISREG(found.st_mode);
    return true;
}

bool input_open(struct input *input, const struct arguments *arguments, int stop) {
    const struct input none = {.name = "standard input", .fd = -1, .held = -1, .stop = stop};
    *input = none;
    if (arguments->input != NULL) input->name = arguments->input;
    if (arguments->serial != NULL) input->name = arguments->serial;
    if (arguments->input != NULL) return open_fifo(input, arguments->input);
    if (arguments->serial != NULL) return open_terminal(input, arguments->serial, arguments->baud);
    return open_standard(input);
}

/* How a read came out. */
enum outcome { GOES_ON, WOULD_WAIT, IS_OVER };

/* Reads a piece of the input into the ring. Where nothing more comes `ending` says why. */
static enum outcome read_piece(struct input *input, unsigned char *chunk, struct ending *ending) {
    ssize_t count = read(input->fd, chunk, CHUNK);
    if (count > 0) return ring_put(input->ring, chunk, (size_t)count) ? GOES_ON : IS_OVER;
    if (count < 0 && (errno == EINTR || errno == EAGAIN)) return WOULD_WAIT;
    if (count < 0) ending->error = errno;
    if (count == 0 && input->never_ends) ending->error = EIO;
    return IS_OVER;
}

static bool has_more(const struct input *input) {
    struct pollfd ready = {.fd = input->fd, .events = POLLIN};
    return poll(&ready, 1, 0) > 0;
}

/* A signal ends the reading, behind what came before it. */
static struct ending end_by_signal(struct input *input, unsigned char *chunk) {
    struct ending ending = {0}, ignored = {0};
    unsigned char number = 0;
    if (read(input->stop, &number, 1) == 1) ending.signal = number;
    for (int left = CHUNKS_BEHIND_A_SIGNAL; number != 0 && left > 0 && has_more(input); left--)
        if (read_piece(input, chunk, &ignored) != GOES_ON) break;
    return ending;
}

/* Reads until the input ends, a signal comes, or nobody takes lines any more: how it ended. */
static struct ending read_all(struct input *input, unsigned char *chunk) {
    for (;;) {
        struct ending ending = {0};
        struct pollfd ready[] = {{.fd = input->fd, .events = POLLIN}, {.fd = input->stop, .events = POLLIN}};
        if (poll(ready, 2, -1) < 0) {
            if (errno == EINTR || errno == EAGAIN) continue;
            ending.error = errno;
            return ending;
        }
        if (ready[1].revents != 0) return end_by_signal(input, chunk);
        if (ready[0].revents != 0 && read_piece(input, chunk, &ending) == IS_OVER) return ending;
    }
}

static void *run_reader(void *given) {
    struct input *input = given;
    struct ending ending = {.error = ENOMEM};
    unsigned char *chunk = malloc(CHUNK);
    if (chunk != NULL) ending = read_all(input, chunk);
    free(chunk);
    ring_finish(input->ring, ending);
    return NULL;
}

bool input_start(struct input *input, struct ring *ring) {
    input->ring = ring;
    ring->waits = input->waits;
    int error = pthread_create(&input->reader, NULL, run_reader, input);
    return error == 0 || refuse(input->name, strerror(error));
}

void input_join(struct input *input) {
    if (pthread_join(input->reader, NULL) != 0) abort();
}

void input_close(struct input *input) {
    if (input->held >= 0) (void)close(input->held);
    if (input->fd > STDIN_FILENO) (void)close(input->fd);
}
