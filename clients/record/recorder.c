#include "recorder.h"
#include <inttypes.h>
#include <poll.h>

enum { DAY_LENGTH = 10 };

/* The saver looks up after so many seconds at the latest, and the status is as old at most. */
enum { GLANCE = 10 };

/* How long the last acknowledgement waits for one who reads it, in milliseconds. */
enum { LAST_WAIT = 1000 };

/* The local date, as 2026-11-29. */
static bool present_day(char day[DAY_LENGTH + 1]) {
    struct tm local;
    time_t now = time(NULL);
    tzset();
    return localtime_r(&now, &local) != NULL && strftime(day, DAY_LENGTH + 1, "%Y-%m-%d", &local) == DAY_LENGTH;
}

/* Writes each line of these bytes to the volume. How many were written is added to `written`. */
static int32_t write_lines(struct recorder *recorder, const unsigned char *bytes, size_t count, uint64_t *written) {
    char day[DAY_LENGTH + 1];
    if (!present_day(day)) return PANSUYOG_INVAL;
    while (count > 0) {
        size_t length = (size_t)((const unsigned char *)memchr(bytes, '\n', count) - bytes);
        int32_t code = pansuyog_file_record_line(&recorder->image->volume, day, (const char *)bytes, length);
        if (code < 0) return code;
        ++*written;
        bytes += length + 1;
        count -= length + 1;
    }
    return PANSUYOG_OK;
}

/* Writes a number to standard output. Each says how many lines are saved by then. So one that would have to wait for its reader is left
 * out, and where nobody reads any more acknowledging alone ends. */
static void acknowledge(struct recorder *recorder, int wait) {
    char text[32];
    struct pollfd output = {.fd = STDOUT_FILENO, .events = POLLOUT};
    if (!recorder->acknowledges || recorder->saved == recorder->acknowledged) return;
    int length = snprintf(text, sizeof text, "%" PRIu64 "\n", recorder->saved), ready = poll(&output, 1, wait);
    if (ready == 0) return;
    ssize_t written = ready < 0 ? -1 : write(STDOUT_FILENO, text, (size_t)length);
    if (written == length)
        recorder->acknowledged = recorder->saved;
    else if (written >= 0 || (errno != EINTR && errno != EAGAIN))
        recorder->acknowledges = false;
}

/* Saves the lines of these bytes. Where one is refused those before it are saved all the same. */
static int32_t save_lines(struct recorder *recorder, const unsigned char *bytes, size_t count) {
    uint64_t written = 0;
    int32_t code = write_lines(recorder, bytes, count, &written);
    int32_t saved = pansuyog_file_record_save(&recorder->image->volume);
    if (saved == PANSUYOG_OK) {
        recorder->saved += written;
        acknowledge(recorder, 0);
    }
    return code < 0 ? code : saved;
}

/* Tells what was lost of the input since it was told last. */
static void tell_losses(struct recorder *recorder) {
    const struct losses *losses = &recorder->losses, *told = &recorder->told;
    const char *path = recorder->image->path;
    if (losses->lost > told->lost)
        fprintf(stderr, "%s: the buffer was full: %" PRIu64 " bytes of the input are lost\n", path, losses->lost - told->lost);
    if (losses->cut_lines > told->cut_lines)
        fprintf(stderr, "%s: a line has at most %d bytes: %" PRIu64 " were cut, by %" PRIu64 " bytes\n", path, LONGEST_LINE,
                losses->cut_lines - told->cut_lines, losses->cut_bytes - told->cut_bytes);
    recorder->told = *losses;
}

/* All but saving, once a second at most: losses are told, finished files copied, and the status written each ten seconds. */
static void tend(struct recorder *recorder, bool is_last) {
    struct timespec now;
    if (clock_gettime(CLOCK_MONOTONIC, &now) != 0) return;
    bool is_early = !is_last && now.tv_sec == recorder->tended;
    recorder->rhythm.glance = is_early ? 1 : GLANCE;
    if (is_early) return;
    recorder->tended = now.tv_sec;
    tell_losses(recorder);
    copies_look(&recorder->copies);
    if (!is_last && recorder->written != 0 && now.tv_sec < recorder->written + GLANCE) return;
    recorder->written = now.tv_sec;
    status_write(&recorder->status, recorder->saved, &recorder->losses);
}

/* Cleans while nothing waits, a pass at a time. */
static int32_t clean(struct recorder *recorder) {
    pansuyog_file *volume = &recorder->image->volume;
    int32_t code = PANSUYOG_OK;
    while (code == PANSUYOG_OK && ring_is_idle(recorder->ring)) {
        int32_t due = pansuyog_file_is_cleaning_due(volume);
        if (due <= 0) return due;
        code = pansuyog_file_clean_once(volume);
    }
    return code;
}

/* Saves lines until the input ends, or a call is refused. */
static int32_t save_all(struct recorder *recorder, unsigned char *taken) {
    size_t count;
    int32_t code = PANSUYOG_OK;
    while (code == PANSUYOG_OK && ring_take(recorder->ring, &recorder->rhythm, taken, &count, &recorder->losses)) {
        if (count > 0) code = save_lines(recorder, taken, count);
        if (code == PANSUYOG_OK) tend(recorder, false);
        if (code == PANSUYOG_OK) code = clean(recorder);
    }
    return code;
}

/* Begins to record, and saves lines. */
static int32_t record(struct recorder *recorder, const struct arguments *arguments) {
    unsigned char *taken = malloc(MOST_TAKEN);
    if (taken == NULL) return PANSUYOG_NO_MEMORY;
    int32_t code = pansuyog_file_record_begin(&recorder->image->volume, arguments->file, arguments->keep);
    if (code == PANSUYOG_OK) tend(recorder, false);
    if (code == PANSUYOG_OK) code = clean(recorder);
    if (code == PANSUYOG_OK) code = save_all(recorder, taken);
    free(taken);
    return code;
}

int recorder_run(struct recorder *recorder, const struct arguments *arguments) {
    recorder->rhythm = (struct rhythm){.lines = arguments->lines, .seconds = (time_t)arguments->seconds, .glance = GLANCE};
    recorder->copies = (struct copies){.folder = arguments->copy, .image = recorder->image};
    recorder->status = (struct status_file){.path = arguments->status, .image = recorder->image};
    recorder->acknowledges = arguments->acknowledges;
    int32_t code = record(recorder, arguments);
    int status = code == PANSUYOG_OK ? 0 : image_refuse(recorder->image, code);
    tend(recorder, true);
    acknowledge(recorder, LAST_WAIT);
    return status;
}
