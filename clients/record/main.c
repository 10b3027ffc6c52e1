/* Records the lines of standard input in a volume: pansuyog-record IMAGE [OPTION ..] */
#include "arguments.h"
#include "image.h"
#include "input.h"
#include "recorder.h"
#include "ring.h"
#include <inttypes.h>
#include <signal.h>

/* Where a signal handler writes the number of its signal. It is set before a handler is, and never again. */
static volatile sig_atomic_t stop_end = -1;

static void stop_reading(int signal_number) {
    int error = errno;
    unsigned char number = (unsigned char)signal_number;
    /* Where the pipe is full a signal before this one ends the reading. */
    ssize_t written = write((int)stop_end, &number, 1);
    (void)written;
    errno = error;
}

/* Gives each standard stream that is closed to nothing, so that no file that is opened becomes one. */
static bool hold_streams(void) {
    int fd;
    do fd = open("/dev/null", O_RDWR);
    while (fd >= 0 && fd <= STDERR_FILENO);
    return fd >= 0 && close(fd) == 0;
}

static bool set_action(int signal_number, void (*handler)(int)) {
    struct sigaction action = {.sa_handler = handler, .sa_flags = SA_RESTART};
    return sigemptyset(&action.sa_mask) == 0 && sigaction(signal_number, &action, NULL) == 0;
}

/* Lets a signal end the reading, unless it was ignored as the program began, as by nohup. */
static bool heed(int signal_number) {
    struct sigaction before;
    if (sigaction(signal_number, NULL, &before) != 0) return false;
    return before.sa_handler == SIG_IGN || set_action(signal_number, stop_reading);
}

/* The two ends of a pipe, neither of which waits. */
static bool open_stop(int ends[2]) {
    if (pipe(ends) != 0) return false;
    for (int at = 0; at < 2; at++)
        if (fcntl(ends[at], F_SETFD, FD_CLOEXEC) != 0 || fcntl(ends[at], F_SETFL, O_NONBLOCK) != 0) return false;
    return true;
}

/* A stream that is closed, and a limit on the size of files, are errors of a call in place of signals. */
static bool prepare(int ends[2]) {
    if (!hold_streams() || !open_stop(ends)) return false;
    stop_end = ends[1];
    return set_action(SIGPIPE, SIG_IGN) && set_action(SIGXFSZ, SIG_IGN) && heed(SIGTERM) && heed(SIGINT) && heed(SIGHUP);
}

/* What the program ends with by how its input ended. */
static int status_of(const struct input *input, const struct ending *ending) {
    if (ending->error != 0) {
        fprintf(stderr, "%s: %s\n", input->name, strerror(ending->error));
        return STATUS_TRY_AGAIN;
    }
    return ending->signal == 0 || ending->signal == SIGTERM ? 0 : 128 + ending->signal;
}

/* Ends the reading, also while nothing comes. */
static void end_reading(struct input *input, int stop_writing) {
    const unsigned char by_program = 0;
    ring_stop(input->ring);
    /* Where the pipe is full a signal ends it. */
    ssize_t written = write(stop_writing, &by_program, 1);
    (void)written;
    input_join(input);
}

/* Reads and saves until the input ends or a call is refused: the status to end with. */
static int record(struct recorder *recorder, const struct arguments *arguments, struct input *input, int stop_writing) {
    int status = image_open(recorder->image, arguments->image, arguments->size, arguments->is_sparse);
    if (status != 0) return status;
    if (!input_start(input, recorder->ring)) return STATUS_TRY_AGAIN;
    status = recorder_run(recorder, arguments);
    end_reading(input, stop_writing);
    return status == 0 ? status_of(input, &recorder->ring->ending) : status;
}

/* Opens all that recording takes, and records. */
static int run(struct recorder *recorder, const struct arguments *arguments, const int ends[2]) {
    struct input input;
    int status = STATUS_TRY_AGAIN;
    if (!ring_begin(recorder->ring, arguments->buffer)) {
        pansuyog_perror(arguments->image, PANSUYOG_NO_MEMORY, NULL);
        return status;
    }
    if (input_open(&input, arguments, ends[0])) {
        status = record(recorder, arguments, &input, ends[1]);
        image_close(recorder->image);
    }
    input_close(&input);
    ring_free(recorder->ring);
    return status;
}

int main(int argc, char **argv) {
    struct arguments arguments;
    struct image image;
    struct ring ring;
    int ends[2];
    (void)argc;
    if (!prepare(ends)) {
        perror("pansuyog-record");
        return STATUS_TRY_AGAIN;
    }
    enum reading reading = arguments_read(&arguments, argv);
    if (reading != READ_WELL) return reading == READ_HELP ? 0 : 2;
    struct recorder recorder = {.image = &image, .ring = &ring};
    int status = run(&recorder, &arguments, ends);
    fprintf(stderr, "saved %" PRIu64 "\n", recorder.saved);
    return status;
}
