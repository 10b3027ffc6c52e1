#include "ring.h"
#include <errno.h>
#include <stdlib.h>
#include <string.h>

/* A call of a lock fails only where the program is wrong. */
static void must(int error) {
    if (error != 0) abort();
}

static void lock(struct ring *ring) {
    must(pthread_mutex_lock(&ring->lock));
}

static void unlock(struct ring *ring) {
    must(pthread_mutex_unlock(&ring->lock));
}

static struct timespec present_time(void) {
    struct timespec now;
    if (clock_gettime(CLOCK_MONOTONIC, &now) != 0) abort();
    return now;
}

/* A condition whose waits end by a clock that nobody sets. */
static int begin_condition(pthread_cond_t *condition) {
    pthread_condattr_t kind;
    int error = pthread_condattr_init(&kind);
    if (error != 0) return error;
    error = pthread_condattr_setclock(&kind, CLOCK_MONOTONIC);
    if (error == 0) error = pthread_cond_init(condition, &kind);
    must(pthread_condattr_destroy(&kind));
    return error;
}

bool ring_begin(struct ring *ring, size_t size) {
    memset(ring, 0, sizeof *ring);
    ring->size = size;
    ring->bytes = malloc(size);
    if (ring->bytes == NULL) return false;
    bool has_lock = pthread_mutex_init(&ring->lock, NULL) == 0;
    if (has_lock && begin_condition(&ring->filled) == 0 && begin_condition(&ring->drained) == 0) return true;
    free(ring->bytes);
    return false;
}

void ring_free(struct ring *ring) {
    must(pthread_cond_destroy(&ring->filled));
    must(pthread_cond_destroy(&ring->drained));
    must(pthread_mutex_destroy(&ring->lock));
    free(ring->bytes);
}

/* The place in memory of the byte at this place behind the first. */
static size_t place_of(const struct ring *ring, size_t behind) {
    return (ring->start + behind) % ring->size;
}

static void copy_in(struct ring *ring, const unsigned char *bytes, size_t count) {
    size_t at = place_of(ring, ring->length), first = count < ring->size - at ? count : ring->size - at;
    memcpy(ring->bytes + at, bytes, first);
    memcpy(ring->bytes, bytes + first, count - first);
    ring->length += count;
}

static void copy_out(const struct ring *ring, unsigned char *bytes, size_t count) {
    size_t first = count < ring->size - ring->start ? count : ring->size - ring->start;
    memcpy(bytes, ring->bytes + ring->start, first);
    memcpy(bytes + first, ring->bytes, count - first);
}

/* Whether so many bytes fit, and the newline that a line needs in the end. */
static bool has_room(const struct ring *ring, size_t count) {
    return ring->length + count < ring->size;
}

/* The line that comes is whole. */
static void end_line(struct ring *ring) {
    copy_in(ring, (const unsigned char *)"\n", 1);
    ring->whole = ring->length;
    if (ring->lines++ == 0) ring->oldest = present_time();
    ring->losses.cut_lines += ring->is_cut;
    ring->is_cut = false;
}

/* The line that comes is lost, so that what is behind the gap isn't taken for its end. */
static void lose_line(struct ring *ring) {
    ring->losses.lost += ring->length - ring->whole;
    ring->length = ring->whole;
    ring->skips = true;
    ring->is_cut = false;
}

/* Waits until so many bytes fit. The saver is told of the lines before, which are due then. */
static void wait_for_room(struct ring *ring, size_t count) {
    while (!ring->is_stopped && !has_room(ring, count)) {
        must(pthread_cond_signal(&ring->filled));
        must(pthread_cond_wait(&ring->drained, &ring->lock));
    }
}

/* Puts a piece of a line, and the end of that if it is there. What is beyond the longest line is left out. */
static void put_piece(struct ring *ring, const unsigned char *piece, size_t count, bool ends) {
    size_t left = LONGEST_LINE - (ring->length - ring->whole), kept = count < left ? count : left;
    if (ring->waits) wait_for_room(ring, kept);
    if (!ring->skips && !has_room(ring, kept)) lose_line(ring);
    if (ring->skips) {
        ring->losses.lost += count + ends;
        ring->skips = !ends;
        return;
    }
    copy_in(ring, piece, kept);
    ring->is_cut |= kept < count;
    ring->losses.cut_bytes += count - kept;
    if (ends) end_line(ring);
}

bool ring_put(struct ring *ring, const unsigned char *bytes, size_t count) {
    lock(ring);
    while (count > 0 && !ring->is_stopped) {
        const unsigned char *newline = memchr(bytes, '\n', count);
        size_t piece = newline == NULL ? count : (size_t)(newline - bytes), taken = piece + (newline != NULL);
        put_piece(ring, bytes, piece, newline != NULL);
        bytes += taken;
        count -= taken;
    }
    bool goes_on = !ring->is_stopped;
    must(pthread_cond_signal(&ring->filled));
    unlock(ring);
    return goes_on;
}

void ring_finish(struct ring *ring, struct ending ending) {
    lock(ring);
    if (ring->length > ring->whole) end_line(ring);
    ring->has_ended = true;
    ring->ending = ending;
    must(pthread_cond_signal(&ring->filled));
    unlock(ring);
}

/* This moment, and so many seconds. */
static struct timespec behind(struct timespec moment, time_t seconds) {
    moment.tv_sec += seconds;
    return moment;
}

static bool is_before(struct timespec one, struct timespec other) {
    return one.tv_sec < other.tv_sec || (one.tv_sec == other.tv_sec && one.tv_nsec < other.tv_nsec);
}

/* Lines are due where so many wait or the oldest has waited so long, where the ring is half full, and at the end. */
static bool is_due(const struct ring *ring, const struct rhythm *rhythm) {
    if (ring->has_ended || ring->lines >= rhythm->lines || ring->whole > ring->size / 2) return true;
    return ring->lines > 0 && !is_before(present_time(), behind(ring->oldest, rhythm->seconds));
}

/* Waits until lines are due, or for so long: whether they are. */
static bool wait_until_due(struct ring *ring, const struct rhythm *rhythm) {
    const struct timespec glance = behind(present_time(), rhythm->glance);
    while (!is_due(ring, rhythm)) {
        struct timespec end = glance, late = behind(ring->oldest, rhythm->seconds);
        if (ring->lines > 0 && is_before(late, end)) end = late;
        int error = pthread_cond_timedwait(&ring->filled, &ring->lock, &end);
        if (error != ETIMEDOUT) must(error);
        else if (!is_before(present_time(), glance)) return is_due(ring, rhythm);
    }
    return true;
}

/* How many bytes of whole lines are taken at a time. */
static size_t count_taken(const struct ring *ring) {
    size_t count = ring->whole;
    if (count <= MOST_TAKEN) return count;
    for (count = MOST_TAKEN; ring->bytes[place_of(ring, count - 1)] != '\n';) count--;
    return count;
}

static size_t count_lines(const unsigned char *bytes, size_t count) {
    size_t lines = 0;
    const unsigned char *end = bytes + count;
    for (const unsigned char *at = bytes; at < end; lines++) at = (const unsigned char *)memchr(at, '\n', (size_t)(end - at)) + 1;
    return lines;
}

/* Takes so many bytes of whole lines. */
static void take(struct ring *ring, unsigned char *taken, size_t count) {
    copy_out(ring, taken, count);
    ring->start = place_of(ring, count);
    ring->length -= count;
    ring->whole -= count;
    ring->lines -= count_lines(taken, count);
}

bool ring_take(struct ring *ring, const struct rhythm *rhythm, unsigned char *taken, size_t *count, struct losses *losses) {
    const struct losses none = {0};
    lock(ring);
    *count = wait_until_due(ring, rhythm) ? count_taken(ring) : 0;
    bool goes_on = *count > 0 || !ring->has_ended;
    take(ring, taken, *count);
    losses->lost += ring->losses.lost;
    losses->cut_lines += ring->losses.cut_lines;
    losses->cut_bytes += ring->losses.cut_bytes;
    ring->losses = none;
    must(pthread_cond_signal(&ring->drained));
    unlock(ring);
    return goes_on;
}

bool ring_is_idle(struct ring *ring) {
    lock(ring);
    bool is_idle = ring->length == 0 && !ring->has_ended;
    unlock(ring);
    return is_idle;
}

void ring_stop(struct ring *ring) {
    lock(ring);
    ring->is_stopped = true;
    must(pthread_cond_signal(&ring->drained));
    unlock(ring);
}
