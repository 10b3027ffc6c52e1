/* What the two libraries of Pansuyog have in common: the codes that their calls answer, and what they tell. pansuyog.h and pansuyog_file.h
 * include it. */
#ifndef PANSUYOG_TYPES_H
#define PANSUYOG_TYPES_H

#include <stddef.h>
#include <stdint.h>

/* A call answers a number from 0 on, or one of these. After all refusals but HALTED the tree and the handles are as before. */
enum pansuyog_code {
    PANSUYOG_OK = 0,
    PANSUYOG_NO_ENTRY = -1,        /* a name isn't there, or a path is empty */
    PANSUYOG_NOT_DIR = -2,         /* a directory is needed here */
    PANSUYOG_IS_DIR = -3,          /* a directory isn't taken here */
    PANSUYOG_EXIST = -4,           /* the entry is there already */
    PANSUYOG_NOT_EMPTY = -5,       /* the directory has entries */
    PANSUYOG_INVAL = -6,           /* an argument isn't taken */
    PANSUYOG_NAME_TOO_LONG = -7,   /* a name, a path or a link's text is too long */
    PANSUYOG_LOOP = -8,            /* more than 40 links were to be followed */
    PANSUYOG_PERM = -9,            /* a directory isn't linked or unlinked */
    PANSUYOG_BUSY = -10,           /* the root can't be removed or renamed */
    PANSUYOG_BAD_HANDLE = -11,     /* no such handle is open */
    PANSUYOG_TOO_MANY_OPEN = -12,  /* 64 handles are open */
    PANSUYOG_TOO_MANY_LINKS = -13, /* the object has 1,000 links */
    PANSUYOG_FILE_TOO_BIG = -14,   /* past the greatest file size, 8,511,488 bytes */
    PANSUYOG_NO_SPACE = -15,       /* the tree would need more than the volume has */
    PANSUYOG_NO_NUMBER = -16,      /* all 4,095 numbers are taken */
    PANSUYOG_DIR_FULL = -17,       /* the directory has 1,024 entries */
    PANSUYOG_NO_MEMORY = -18,      /* memory was refused */
    PANSUYOG_DEVICE = -19,         /* a sector that is needed couldn't be read, or the system refused a call */
    PANSUYOG_HALTED = -20,         /* a write or a sync failed, or had no memory: each call answers this until the volume is mounted anew */
    PANSUYOG_STUCK = -21,          /* never comes */
    PANSUYOG_WORN = -22,           /* the volume has had 2^62 checkpoints */
    PANSUYOG_TOO_SMALL = -30,      /* the device has too few sectors */
    PANSUYOG_NO_CHECKPOINT = -31,  /* the device holds no volume */
    PANSUYOG_NOT_MOUNTED = -40,    /* no volume is mounted */
    PANSUYOG_ALREADY_MOUNTED = -41,
    PANSUYOG_NO_ORDER = -42,       /* no order of this number waits */
    PANSUYOG_READ_ONLY = -43,      /* the volume is only read, and the call may write */
    PANSUYOG_IN_USE = -44,         /* another program has the file */
    PANSUYOG_LOCK_FAILED = -45,    /* the file can't be locked */
    PANSUYOG_DAMAGED = -100        /* with the stage that a mount found fault with: -101 to -115 */
};

/* What a mount answers where the volume is damaged: the stage that failed, 1 to 15; else 0. */
static inline int32_t pansuyog_damage(int32_t code) {
    return code < PANSUYOG_DAMAGED ? PANSUYOG_DAMAGED - code : 0;
}

/* What a code says, in English. */
static inline const char *pansuyog_text(int32_t code) {
    switch (code) {
    case PANSUYOG_NO_ENTRY: return "the volume has nothing of this name";
    case PANSUYOG_NOT_DIR: return "a directory is needed here";
    case PANSUYOG_IS_DIR: return "this is a directory";
    case PANSUYOG_EXIST: return "this is there already";
    case PANSUYOG_NOT_EMPTY: return "the directory has entries";
    case PANSUYOG_INVAL: return "an argument isn't taken";
    case PANSUYOG_NAME_TOO_LONG: return "a path has at most 1023 bytes, and a name 59, or 123 where the format and `widen` let it";
    case PANSUYOG_LOOP: return "more than 40 links were to be followed";
    case PANSUYOG_PERM: return "a directory isn't linked or unlinked";
    case PANSUYOG_BUSY: return "the root can't be removed or renamed";
    case PANSUYOG_BAD_HANDLE: return "no such handle is open";
    case PANSUYOG_TOO_MANY_OPEN: return "64 handles are open";
    case PANSUYOG_TOO_MANY_LINKS: return "the object has 1000 links";
    case PANSUYOG_FILE_TOO_BIG: return "this is past the greatest size of a file";
    case PANSUYOG_NO_SPACE: return "the volume has no space for this";
    case PANSUYOG_NO_NUMBER: return "the volume has 4095 objects";
    case PANSUYOG_DIR_FULL: return "the directory has 1024 entries";
    case PANSUYOG_NO_MEMORY: return "there isn't enough memory";
    case PANSUYOG_DEVICE: return "a sector that is needed couldn't be read";
    case PANSUYOG_HALTED: return "the volume takes no call any more: a write or a sync failed, or there was no memory for one";
    case PANSUYOG_STUCK: return "too few segments of the volume are clean";
    case PANSUYOG_WORN: return "the volume was changed too often to be changed again";
    case PANSUYOG_TOO_SMALL: return "it is shorter than its volume, or than any volume";
    case PANSUYOG_NO_CHECKPOINT: return "it holds no volume";
    case PANSUYOG_NOT_MOUNTED: return "no volume is mounted";
    case PANSUYOG_ALREADY_MOUNTED: return "a volume is mounted already";
    case PANSUYOG_NO_ORDER: return "no order of this number waits";
    case PANSUYOG_READ_ONLY: return "the volume is only read";
    case PANSUYOG_IN_USE: return "it is in use by another program";
    case PANSUYOG_LOCK_FAILED: return "it can't be locked";
    default: return code >= 0 ? "it is done" : pansuyog_damage(code) ? "the volume is damaged" : "this code isn't known";
    }
}

enum pansuyog_kind { PANSUYOG_FILE = 1, PANSUYOG_DIRECTORY = 2, PANSUYOG_LINK = 3 };

typedef struct pansuyog_stat_t {
    uint64_t size; /* in bytes */
    uint32_t number;
    uint32_t kind;
    uint32_t links;
} pansuyog_stat_t;

typedef struct pansuyog_space_t {
    uint64_t data_blocks; /* blocks of 512 bytes that have a nonzero byte */
    uint64_t meta_blocks; /* inodes and pointer blocks */
    uint64_t need;        /* of the tree */
    uint64_t limit;       /* the most that it may need */
} pansuyog_space_t;

/* What a volume is made with. */
typedef struct pansuyog_shape_t {
    uint32_t segments;        /* a multiple of 8 in 64..1024 */
    uint32_t version;         /* of the layout: 1 to 3 */
    uint32_t segment_sectors; /* how many sectors a segment has: PANSUYOG_SEGMENT_SECTORS */
    uint32_t unit;            /* how many sectors a unit has: 1, or in version 3 a power of 2 in 1..64 */
} pansuyog_shape_t;

enum { PANSUYOG_SEGMENT_SECTORS = 64 };

typedef struct pansuyog_entry_t {
    uint32_t number;
    uint32_t kind;
} pansuyog_entry_t;

#endif
