#include "arguments.h"
#include "serial.h"
#include <stddef.h>
#include <stdio.h>
#include <string.h>

#define KIB (UINT32_C(1) << 10)
#define MIB (UINT32_C(1) << 20)
#define GIB (UINT32_C(1) << 30)

static const char USAGE[] = "usage: pansuyog-record IMAGE [OPTION ..]\n";

static const char HELP[] =
    "Records the lines of standard input in numbered files of the volume in IMAGE, a file or a block\n"
    "device. An image that isn't there is made. Where there is no space the oldest file goes.\n"
    "\n"
    "  --size BYTES      of the segments of an image that is made: at most 32M, as without it\n"
    "  --sparse          reserves no room for an image that is made\n"
    "  --lines LINES     saves so many lines together: 10 without it\n"
    "  --seconds SECONDS saves what waits once its oldest line has waited so long: 5 without it\n"
    "  --file BYTES      begins the next file behind so many bytes, at most 8M: 128K without it\n"
    "  --keep FILES      keeps so many files at most: without it as many as there is space for\n"
    "  --buffer BYTES    so much input waits in memory at most, 128K to 1G: 1M without it\n"
    "  --acknowledge     tells standard output how many lines are saved, each time\n"
    "  --input FIFO      reads a FIFO in place of standard input\n"
    "  --serial TTY[:BAUD]  reads a terminal in its place, at 115200 baud without BAUD\n"
    "  --copy FOLDER     copies each file there once the next one has begun\n"
    "  --status FILE     writes a line of JSON there, each ten seconds\n"
    "\n"
    "BYTES may end in K, M or G. A line has at most 65535 bytes. SIGTERM, SIGINT and SIGHUP save what\n"
    "waits. Status 0: the input has ended, or SIGTERM came. 1: see standard error, and start it again.\n"
    "2: restart the machine before, or the command line is wrong.\n";

/* An option that has a number: which ones it takes, whether K, M or G may stand behind, and where it goes. */
struct numeric {
    const char *name;
    uint32_t least, most;
    bool is_size;
    size_t place;
};

static const struct numeric NUMERICS[] = {
    {"--size", 1, 32 * MIB, true, offsetof(struct arguments, size)},
    {"--lines", 1, 1000000, false, offsetof(struct arguments, lines)},
    {"--seconds", 1, 86400, false, offsetof(struct arguments, seconds)},
    {"--file", 1, 8 * MIB, true, offsetof(struct arguments, file)},
    {"--keep", 0, 1024, false, offsetof(struct arguments, keep)},
    {"--buffer", 128 * KIB, GIB, true, offsetof(struct arguments, buffer)},
};

/* The number of a text, without leading zeros. What stands behind its digits is put into `rest`. False where it has no digits, or a number
 * above `most`. */
static bool read_digits(const char *text, uint64_t most, uint64_t *number, const char **rest) {
    const char *at = text;
    *number = 0;
    for (; *at >= '0' && *at <= '9'; at++) {
        *number = 10 * *number + (uint64_t)(*at - '0');
        if (*number > most) return false;
    }
    *rest = at;
    return at != text && (text[0] != '0' || at == text + 1);
}

static uint64_t unit_of(const char *text) {
    if (text[0] == '\0') return 1;
    if (text[1] != '\0') return 0;
    return text[0] == 'K' ? KIB : text[0] == 'M' ? MIB : text[0] == 'G' ? GIB : 0;
}

static bool read_number(const struct numeric *option, const char *text, uint32_t *value) {
    uint64_t number;
    const char *rest;
    if (!read_digits(text, option->most, &number, &rest)) return false;
    uint64_t unit = option->is_size ? unit_of(rest) : *rest == '\0';
    if (unit == 0 || number * unit < option->least || number * unit > option->most) return false;
    *value = (uint32_t)(number * unit);
    return true;
}

/* The terminal and its speed. A name may have colons of its own, so a number alone behind the last one is a speed. */
static bool read_serial(struct arguments *arguments, char *text) {
    char *colon = strrchr(text, ':');
    uint64_t baud;
    const char *rest;
    arguments->serial = text;
    if (colon == NULL || strspn(colon + 1, "0123456789") != strlen(colon + 1) || colon[1] == '\0') return true;
    *colon = '\0';
    if (!read_digits(colon + 1, UINT32_MAX, &baud, &rest)) return false;
    arguments->baud = (uint32_t)baud;
    return serial_has_speed(arguments->baud);
}

static bool is_numeric(struct arguments *arguments, const char *name, const char *value, bool *well) {
    for (size_t at = 0; at < sizeof NUMERICS / sizeof *NUMERICS; at++) {
        const struct numeric *option = &NUMERICS[at];
        if (strcmp(name, option->name) != 0) continue;
        *well = value != NULL && read_number(option, value, (uint32_t *)(void *)((char *)arguments + option->place));
        if (!*well) fprintf(stderr, "pansuyog-record: %s takes a number from %u to %u\n", name, option->least, option->most);
        return true;
    }
    return false;
}

/* An option that has a name of the host: what it is, and where it goes. */
struct named {
    const char *name, *what;
    size_t place;
};

static const struct named NAMED[] = {
    {"--input", "a FIFO", offsetof(struct arguments, input)},
    {"--copy", "a folder", offsetof(struct arguments, copy)},
    {"--status", "a file", offsetof(struct arguments, status)},
};

static bool is_named(struct arguments *arguments, const char *name, const char *value, bool *well) {
    for (size_t at = 0; at < sizeof NAMED / sizeof *NAMED; at++) {
        if (strcmp(name, NAMED[at].name) != 0) continue;
        *well = value != NULL && *value != '\0';
        if (!*well) fprintf(stderr, "pansuyog-record: %s takes %s\n", name, NAMED[at].what);
        *(const char **)(void *)((char *)arguments + NAMED[at].place) = value;
        return true;
    }
    return false;
}

/* Takes an option that has a value, if it is one: whether it was well. */
static bool read_option(struct arguments *arguments, const char *name, char *value) {
    bool well;
    if (is_numeric(arguments, name, value, &well) || is_named(arguments, name, value, &well)) return well;
    if (strcmp(name, "--serial") != 0) {
        fprintf(stderr, "pansuyog-record: %s is no option\n", name);
        return false;
    }
    well = value != NULL && read_serial(arguments, value);
    if (!well) fputs("pansuyog-record: --serial takes a terminal, and a speed that is known\n", stderr);
    return well;
}

/* Takes an option that stands alone: whether it is one. */
static bool is_flag(struct arguments *arguments, const char *word) {
    bool is_sparse = strcmp(word, "--sparse") == 0, acknowledges = strcmp(word, "--acknowledge") == 0;
    arguments->is_sparse |= is_sparse;
    arguments->acknowledges |= acknowledges;
    return is_sparse || acknowledges;
}

/* Takes one word, and its value where that is the next one: how many words they were, or 0 where they are wrong. */
static int read_word(struct arguments *arguments, char **words, bool *has_options) {
    char *word = words[0];
    if (*has_options && strcmp(word, "--") == 0) {
        *has_options = false;
        return 1;
    }
    if (!*has_options || word[0] != '-' || word[1] == '\0') {
        if (arguments->image != NULL) fprintf(stderr, "pansuyog-record: %s is one image too many\n", word);
        if (arguments->image != NULL || word[0] == '\0') return 0;
        arguments->image = word;
        return 1;
    }
    if (is_flag(arguments, word)) return 1;
    char *value = strchr(word, '=');
    if (value == NULL) return read_option(arguments, word, words[1]) ? 2 : 0;
    *value = '\0';
    return read_option(arguments, word, value + 1) ? 1 : 0;
}

enum reading arguments_read(struct arguments *arguments, char **words) {
    const struct arguments usual = {
        .baud = 115200, .size = 32 * MIB, .lines = 10, .seconds = 5, .file = 128 * KIB, .buffer = MIB};
    bool has_options = true, well = true;
    *arguments = usual;
    for (int at = words[0] == NULL ? 0 : 1, taken; well && words[at] != NULL; at += taken) {
        if (has_options && strcmp(words[at], "--help") == 0) {
            printf("%s%s", USAGE, HELP);
            return READ_HELP;
        }
        taken = read_word(arguments, words + at, &has_options);
        well = taken > 0;
    }
    if (well && arguments->input != NULL && arguments->serial != NULL) {
        fputs("pansuyog-record: --input and --serial exclude each other\n", stderr);
        well = false;
    }
    if (well && arguments->image != NULL) return READ_WELL;
    fputs(USAGE, stderr);
    return READ_BADLY;
}
