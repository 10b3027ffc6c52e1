/* All writes and syncs of a run, what was told behind them, and what a stop behind any of them leaves of a device. */
#ifndef STOPPED_H
#define STOPPED_H

#include "library.h"

enum { SEGMENTS = 64, RECORDS = 3000, MOST_ORDERS = 40000 };

struct order {
    int32_t write;
    uint32_t sector;
    unsigned char bytes[SECTOR];
};

/* What was done to a device that held `start`, the first order first. */
static struct order orders[MOST_ORDERS];
static size_t count;
static unsigned char start[SECTORS(SEGMENTS)][SECTOR];

/* What was told: so many records, once so many orders are carried out. */
static struct {
    size_t orders;
    uint32_t records;
} told[RECORDS];
static size_t times;

/* What a stop leaves: the bytes of each sector, or that it can't be read. */
static unsigned char left[SECTORS(SEGMENTS)][SECTOR];
static signed char is_lost[SECTORS(SEGMENTS)];

/* Takes what a volume has told its device since. */
static void take(volume_t *volume);

/* Appends records to /log, and overwrites blocks of /junk at random so that the cleaner has to do. */
static void run(volume_t *volume) {
    check(CALL(create)(volume, PATH("/log")) == 0 && CALL(create)(volume, PATH("/junk")) == 1);
    for (uint32_t number = 0; number < RECORDS; number++) {
        char record[64];
        unsigned char junk[SECTOR];
        record_of(record, number);
        check(CALL(pwrite)(volume, 0, (uint64_t)number * 64, record, 64) == 64);
        if (number % 3 == 0) {
            memset(junk, 1 + (int)chance(200), SECTOR);
            check(CALL(pwrite)(volume, 1, (uint64_t)chance(1200) * SECTOR, junk, SECTOR) == SECTOR);
        }
        if (number % 7 == 6) {
            check(CALL(sync)(volume) == 0);
            take(volume);
            told[times].orders = count;
            told[times++].records = number + 1;
        } else if (chance(4) == 0) {
            take(volume);
        }
    }
    take(volume);
}

/* How many records were told of, by so many orders. */
static uint32_t told_by(size_t stop) {
    uint32_t least = 0;
    for (size_t at = 0; at < times && told[at].orders <= stop; at++) least = told[at].records;
    return least;
}

/* A sync: what was written since the one before is there. */
static void settle(unsigned char synced[][SECTOR], unsigned char written[][SECTOR], signed char *is_unsynced) {
    for (uint32_t sector = 0; sector < SECTORS(SEGMENTS); sector++) {
        if (is_unsynced[sector]) memcpy(synced[sector], written[sector], SECTOR);
        is_unsynced[sector] = 0;
    }
}

/* What a device that was stopped behind so many orders has been given: `synced` by its last sync, and `written` since. */
static void give_until(size_t stop, unsigned char synced[][SECTOR], unsigned char written[][SECTOR], signed char *is_unsynced) {
    memcpy(synced, start, sizeof start);
    memcpy(written, start, sizeof start);
    memset(is_unsynced, 0, SECTORS(SEGMENTS));
    for (size_t at = 0; at < count && (at < stop || orders[at].write); at++) {
        /* Some later writes, up to the next sync, were begun. */
        if (at >= stop && chance(3)) continue;
        if (orders[at].write) {
            memcpy(written[orders[at].sector], orders[at].bytes, SECTOR);
            is_unsynced[orders[at].sector] = 1;
        } else {
            settle(synced, written, is_unsynced);
        }
    }
}

/* Lets a device be stopped behind so many orders. Each sector that wasn't synced then holds its old bytes or its new ones, or one in three
 * can't be read where that is asked for. How many can't. */
static unsigned stop_behind(size_t stop, int with_lost) {
    static unsigned char synced[SECTORS(SEGMENTS)][SECTOR], written[SECTORS(SEGMENTS)][SECTOR];
    static signed char is_unsynced[SECTORS(SEGMENTS)];
    unsigned lost = 0;
    give_until(stop, synced, written, is_unsynced);
    /* All of one kind, or each of any. */
    uint32_t kinds = with_lost ? 3 : 2, how = chance(kinds + 1);
    for (uint32_t sector = 0; sector < SECTORS(SEGMENTS); sector++) {
        uint32_t kind = how < kinds ? how : chance(kinds);
        is_lost[sector] = is_unsynced[sector] && kind == 2;
        lost += (unsigned)is_lost[sector];
        memcpy(left[sector], is_unsynced[sector] && kind == 0 ? synced[sector] : written[sector], SECTOR);
    }
    return lost;
}

/* The volume has whole records, and so many at least. */
static void look(volume_t *volume, uint32_t least) {
    pansuyog_stat_t stat = {0};
    char want[64], bytes[64];
    int32_t handle = CALL(open)(volume, PATH("/log"));
    if (handle >= 0) check(CALL(stat)(volume, PATH("/log"), &stat) == 0);
    check(stat.size / 64 >= least);
    for (uint32_t number = 0; number < stat.size / 64; number++) {
        record_of(want, number);
        check(CALL(pread)(volume, (uint32_t)handle, (uint64_t)number * 64, bytes, 64) == 64 && !memcmp(want, bytes, 64));
    }
}

#endif
