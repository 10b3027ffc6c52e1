/* A recorder that is killed 20 times: each record that it told of is there.
 *     kill IMAGE */
#define _GNU_SOURCE
#include "library.h"
#include <signal.h>
#include <sys/mman.h>
#include <sys/wait.h>
#include <time.h>

/* How many records were told of, and how many times. */
struct told {
    uint32_t records;
    uint32_t times;
};

/* Appends records to /log, and tells of them after each tenth. */
static void record(const char *path, volatile struct told *told) {
    struct image image;
    pansuyog_stat_t stat;
    char bytes[64];
    check(mount_image(&image, path, 0) == 0);
    int32_t handle = CALL(open)(&image.volume, PATH("/log"));
    if (handle == PANSUYOG_NO_ENTRY) handle = CALL(create)(&image.volume, PATH("/log"));
    check(handle >= 0 && CALL(stat)(&image.volume, PATH("/log"), &stat) == 0);
    for (uint32_t number = (uint32_t)(stat.size / 64);; number++) {
        record_of(bytes, number);
        if (CALL(pwrite)(&image.volume, (uint32_t)handle, (uint64_t)number * 64, bytes, 64) != 64) _exit(0);
        if (number % 10 != 9) continue;
        if (save_image(&image) != 0) _exit(0);
        told->records = number + 1;
        told->times++;
    }
}

/* The records on the volume are whole, and those that were told of are among them. */
static void look(const char *path, uint32_t told) {
    struct image image;
    pansuyog_stat_t stat = {0};
    char want[64], bytes[64];
    check(mount_image(&image, path, 1) == 0);
    int32_t handle = CALL(open)(&image.volume, PATH("/log"));
    check(handle >= 0 || (handle == PANSUYOG_NO_ENTRY && told == 0));
    if (handle >= 0) check(CALL(stat)(&image.volume, PATH("/log"), &stat) == 0);
    check(stat.size / 64 >= told && stat.size % 64 == 0);
    for (uint32_t number = 0; number < stat.size / 64; number++) {
        record_of(want, number);
        check(CALL(pread)(&image.volume, (uint32_t)handle, (uint64_t)number * 64, bytes, 64) == 64 && !memcmp(bytes, want, 64));
    }
    drop_image(&image);
}

int main(int argc, char **argv) {
    check(argc == 2);
    volatile struct told *told = mmap(NULL, sizeof *told, PROT_READ | PROT_WRITE, MAP_SHARED | MAP_ANONYMOUS, -1, 0);
    check(told != MAP_FAILED && (unlink(argv[1]) == 0 || errno == ENOENT) && make_image(argv[1], 128, 2) == 0);
    for (int round = 0; round < 20; round++) {
        pid_t child = fork();
        check(child >= 0);
        if (child == 0) record(argv[1], told);
        struct timespec time = {0, (20 + round) * 1000000L};
        nanosleep(&time, NULL);
        kill(child, SIGKILL);
        check(waitpid(child, NULL, 0) == child);
        look(argv[1], told->records);
    }
    check(told->times > 0);
    printf("20 kills, %u times told of records, all there\n", told->times);
    return 0;
}
