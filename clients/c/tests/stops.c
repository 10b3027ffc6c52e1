/* The power goes: all orders of a run are kept, and a device is stopped behind any number of them. Each sector that wasn't synced then
 * holds its old bytes or its new ones, or can't be read, and some later writes were begun. A mount finds all that was told.
 *     stops ROUNDS SEED */
#include "stopped.h"

/* The number of the first order of the run. */
static uint64_t before;

/* Takes the orders that wait, each by its number. */
static void take(pansuyog *volume) {
    for (uint64_t number = pansuyog_carried(volume); number < pansuyog_told(volume); number++) {
        check(count < MOST_ORDERS && number == before + count);
        orders[count].write = pansuyog_order(volume, number, &orders[count].sector, orders[count].bytes, SECTOR);
        check(orders[count].write >= 0);
        count++;
    }
    check(pansuyog_done(volume) == 0);
}

/* An empty volume in `start`, which is mounted. */
static void make(pansuyog *volume) {
    uint32_t sector;
    unsigned char bytes[SECTOR];
    check(pansuyog_begin(volume, SECTORS(SEGMENTS)) == 0 && pansuyog_give(volume, 0, start, sizeof start) == 0);
    check(pansuyog_format(volume, SEGMENTS, 1, ROOM) == 0);
    before = pansuyog_told(volume);
    for (uint64_t number = 0; number < before; number++) {
        if (pansuyog_order(volume, number, &sector, bytes, SECTOR) == 1) memcpy(start[sector], bytes, SECTOR);
    }
    check(pansuyog_done(volume) == 0 && pansuyog_mount(volume, ROOM) == 0);
    take(volume);
}

/* Gives what a stop left, and mounts it. */
static void mount_left(pansuyog *volume) {
    check(pansuyog_begin(volume, SECTORS(SEGMENTS)) == 0);
    for (uint32_t sector = 0; sector < SECTORS(SEGMENTS); sector++) {
        if (!is_lost[sector]) check(pansuyog_give(volume, sector, left[sector], SECTOR) == 0);
    }
    check(pansuyog_mount(volume, ROOM) == 0);
}

int main(int argc, char **argv) {
    check(argc == 3);
    int rounds = atoi(argv[1]);
    chance_state = (uint64_t)atoll(argv[2]) * 2654435761u + 1;
    unsigned unreadable = 0;
    pansuyog volume;
    check(pansuyog_new(&volume) == 0);
    make(&volume);
    run(&volume);
    printf("%zu orders, %zu times told\n", count, times);
    for (int round = 0; round < rounds; round++) {
        size_t stop = chance((uint32_t)count + 1);
        unreadable += stop_behind(stop, 1);
        mount_left(&volume);
        look(&volume, told_by(stop));
    }
    pansuyog_free(volume);
    printf("%d stops, %u sectors unreadable, each mount found what was told\n", rounds, unreadable);
    return 0;
}
