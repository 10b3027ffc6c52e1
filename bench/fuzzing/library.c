/* What LLVM's libFuzzer calls: the program `lfs` over an image in memory, some of whose bytes are others, whose calls fail and stop, and
   which is refused memory. bench/fuzzing/library.py builds it with the program's module, whose calls of the system come here.

   An input tells, byte by byte: the image it begins with; the allocation, the read, the write and the sync that fail, and within which
   write the device stops, 0 for none, in two bytes each; what a stop leaves, how often the volume's unit is halved to give the device's,
   and whether a new volume is made, of which version; how many bytes of the image are others, and for each which of its live sectors it is
   in, where, and what it is; and then a script. An image that `check` finds well is one after each stop too, which may spoil units of the
   device. A new volume is made on a block device of the length that any version takes, by the unit that the script's first byte tells.

   Where the descriptor ASKED has a byte, the run is written to the descriptor TOLD: what was changed, replied and left, for a judge. */
#include <errno.h>
#include <stdint.h>
#include <stdio.h>
#include <stdlib.h>
#include <string.h>
#include <unistd.h>

enum { SECTOR = 512, MOST_SECTORS = 256 + 64 * 64, MOST_BASES = 32, FILE_OF_IMAGE = 100, MOST_SAID = 1 << 22, MOST_LINE = 128, SUMMED = 508, MOST_WORDS = 12 };
enum { OLD, NEW, SPOILT, EACH_ITS_OWN };

extern int lfs_main(void);

static struct { uint32_t size, live[MOST_SECTORS], lives; uint8_t bytes[MOST_SECTORS * SECTOR]; } bases[MOST_BASES];
static unsigned count_of_bases;

static uint8_t image[MOST_SECTORS * SECTOR], synced[MOST_SECTORS * SECTOR];
static uint8_t is_dirty[MOST_SECTORS];
static uint32_t image_size;
static char said[MOST_SAID];
static size_t said_length;
static const uint8_t *script;
static size_t script_length;
static const char *words[MOST_WORDS];
static size_t count_of_words;
static int errno_now, is_stopped, is_blocks;
static int told = -1, asked = -1;
/* How many calls of each kind were made, which one fails, and how many did. */
static unsigned allocations, reads, writes, syncs, no_allocation, no_read, no_write, no_sync, stop_at;
static unsigned refused, failed_reads, failed_writes, failed_syncs;

static uint32_t crc32c(const uint8_t *bytes, size_t length) {
  uint32_t sum = UINT32_MAX;
  for (size_t at = 0; at < length; ++at) {
    sum ^= bytes[at];
    for (int bit = 0; bit < 8; ++bit) sum = sum >> 1 ^ (sum & 1 ? 0x82f63b78 : 0);
  }
  return ~sum;
}

/* What the module calls in the place of the system. */

struct memory { int64_t is_there; void *at; };
static int refuses(void) {
  int is_last = ++allocations == no_allocation;
  refused += (unsigned)is_last;
  return is_last;
}
struct memory fuzz_alloc(size_t size, size_t align) {
  void *at = refuses() ? NULL : malloc(size ? size : align);
  return (struct memory){at != NULL, at ? at : image};
}
struct memory fuzz_realloc(void *old, size_t was, size_t size, size_t align) {
  (void)was;
  void *at = refuses() ? NULL : realloc(old, size ? size : align);
  return (struct memory){at != NULL, at ? at : image};
}
void fuzz_dealloc(void *at) { free(at); }
size_t fuzz_arg_count(void) { return count_of_words; }
int64_t fuzz_arg(size_t at, char *to, size_t room) {
  size_t length = at < count_of_words ? strlen(words[at]) : 0;
  if (at >= count_of_words || length > room) return at >= count_of_words ? -1 : -2;
  memcpy(to, words[at], length);
  return (int64_t)length;
}
int fuzz_errno(void) { return errno_now; }
void fuzz_set_errno(int number) { errno_now = number; }

static int64_t failed(unsigned *count) {
  errno_now = 5, ++*count;
  return -1;
}
int fuzz_open(const char *path, int flags) {
  (void)flags;
  if (strcmp(path, "/image") == 0) return FILE_OF_IMAGE;
  errno_now = 2;
  return -1;
}
/* A second descriptor of the image is the first. */
int fuzz_fcntl(int file, int how) { return (void)how, file == FILE_OF_IMAGE ? file : 0; }
int fuzz_close(int file) { return (void)file, 0; }
int fuzz_flock(int file, int how) { return (void)file, (void)how, 0; }
int fuzz_ftruncate(int file, int64_t size) { return (void)file, (void)size, 0; }

int64_t fuzz_lseek(int file, int64_t at, int from) {
  (void)file;
  return from == 2 ? image_size + at : at;
}

int64_t fuzz_read(int file, uint8_t *to, size_t length) {
  if (file != 0) return failed(&failed_reads);
  if (length > script_length) length = script_length;
  memcpy(to, script, length);
  script += length, script_length -= length;
  return (int64_t)length;
}

int64_t fuzz_write(int file, const char *from, size_t length) {
  for (size_t at = 0; file == 1 && at < length && said_length + 1 < MOST_SAID; ++at) said[said_length++] = from[at];
  return (int64_t)length;
}

int64_t fuzz_pread(int file, uint8_t *to, size_t length, int64_t from) {
  (void)file;
  if (is_stopped || ++reads == no_read || from < 0) return failed(&failed_reads);
  if (from >= image_size) return 0;
  if (length > image_size - (uint64_t)from) length = image_size - (size_t)from;
  memcpy(to, image + from, length);
  return (int64_t)length;
}

int64_t fuzz_pwrite(int file, const uint8_t *bytes, size_t length, int64_t from) {
  (void)file;
  if (from < 0 || (uint64_t)from + length > image_size || from % SECTOR || length % SECTOR) abort();
  for (size_t at = 0; at < length; at += SECTOR) {
    size_t sector = ((size_t)from + at) / SECTOR;
    if (is_stopped || ++writes == no_write) return at ? (int64_t)at : failed(&failed_writes);
    is_stopped = writes == stop_at;
    memcpy(image + sector * SECTOR, bytes + at, SECTOR);
    is_dirty[sector] = 1;
    if (is_stopped) return at ? (int64_t)at : failed(&failed_writes);
  }
  return (int64_t)length;
}

int fuzz_fsync(int file) {
  (void)file;
  if (is_stopped || ++syncs == no_sync) return (int)failed(&failed_syncs);
  for (size_t at = 0; at < MOST_SECTORS; ++at) {
    if (is_dirty[at]) memcpy(synced + at * SECTOR, image + at * SECTOR, SECTOR);
    is_dirty[at] = 0;
  }
  return 0;
}

int fuzz_fdatasync(int file) { return fuzz_fsync(file); }

/* A regular file or a block device of mode 644, as the kernel lays out a `statx`. */
int fuzz_statx(int folder, const char *path, int flags, unsigned mask, uint8_t *to) {
  (void)folder, (void)path, (void)flags, (void)mask;
  memset(to, 0, 256);
  uint32_t all = 0x7ff, links = 1;
  uint16_t mode = is_blocks ? 0060644 : 0100644;
  uint64_t size = image_size;
  memcpy(to, &all, 4), memcpy(to + 16, &links, 4), memcpy(to + 28, &mode, 2), memcpy(to + 40, &size, 8);
  return 0;
}

/* The runs. */

static void say(const char *word) { words[count_of_words++] = word; }
static int run(const char *command, const uint8_t *text, size_t length) {
  words[0] = "lfs", words[1] = command, words[2] = "/image";
  if (count_of_words < 3) count_of_words = 3;
  script = text, script_length = length, said_length = 0, errno_now = 0;
  int status = lfs_main();
  said[said_length] = 0, count_of_words = 0;
  if (status < 0 || status > 3) abort();
  return status;
}

/* How many sectors a stop may spoil at once: those of the least unit that a slot tells. */
static size_t unit_of_image(void) {
  const size_t slots[] = {0, 1, 128};
  size_t unit = 64;
  for (int at = 0; at < 3; ++at) {
    const uint8_t *slot = image + SECTOR * slots[at];
    size_t own = slot[24] <= 6 ? (size_t)1 << slot[24] : 1;
    if (memcmp(slot, "SLFSCKP1", 8) == 0 && own < unit) unit = own;
  }
  return unit;
}

/* Stops the device. Of each of its units the sectors that aren't synced are old or new, or all of it has other bytes. */
static void crash(unsigned how, size_t unit) {
  for (size_t first = 0; first < MOST_SECTORS; first += unit) {
    unsigned left = how == EACH_ITS_OWN ? first / unit % EACH_ITS_OWN : how, is_spoilt = 0;
    for (size_t at = first; at < first + unit; ++at) {
      if (is_dirty[at] && left == OLD) memcpy(image + at * SECTOR, synced + at * SECTOR, SECTOR);
      is_spoilt |= is_dirty[at] && left == SPOILT;
      is_dirty[at] = 0;
    }
    for (size_t at = first * SECTOR; is_spoilt && at < (first + unit) * SECTOR; ++at) image[at] ^= 0xff;
  }
  is_stopped = 0;
}

static unsigned number(const uint8_t **from, size_t *left, size_t bytes) {
  unsigned found = 0;
  for (size_t at = 0; at < bytes && *left; ++at, ++*from, --*left) found |= (unsigned)**from << 8 * at;
  return found;
}

static void begin(unsigned base) {
  image_size = bases[base].size;
  memcpy(image, bases[base].bytes, sizeof image);
  memset(is_dirty, 0, sizeof is_dirty);
  allocations = reads = writes = syncs = no_allocation = no_read = no_write = no_sync = stop_at = 0, is_stopped = 0;
}

/* Changes bytes of live sectors. The first bit of the count says whether a checkpoint gets its checksum. */
static void patch(unsigned base, const uint8_t **from, size_t *left) {
  unsigned count = number(from, left, 1);
  for (unsigned at = 0; at < count / 2 % 8; ++at) {
    uint8_t *sector = image + SECTOR * bases[base].live[number(from, left, 2) % bases[base].lives];
    sector[number(from, left, 2) % SECTOR] = (uint8_t)number(from, left, 1);
    uint32_t sum = crc32c(sector, SUMMED);
    if (count % 2 && memcmp(sector, "SLFSCKP1", 8) == 0 && sector[20] == 3) memcpy(sector + SUMMED, &sum, 4);
  }
}

/* What a judge is told of a run. The numbers stand as bench/fuzzing/judged.py reads them. */
struct told {
  uint32_t base, size, version, unit, how, was_status, status, left_status, refused, failed_reads, failed_writes, failed_syncs;
  uint32_t input, was_said, script, said, left_said, patched, left;
};
static uint8_t patched[MOST_SECTORS * SECTOR];
static char was_said[MOST_LINE], run_said[MOST_SAID];

/* A signal of libFuzzer's clock ends a call early. */
static void put(const void *bytes, size_t length) {
  for (const uint8_t *from = bytes; length;) {
    ssize_t sent = write(told, from, length);
    if (sent < 0 && errno != EINTR) abort();
    if (sent > 0) from += sent, length -= (size_t)sent;
  }
}

static int is_asked(void) {
  char byte;
  ssize_t found = -1;
  while (asked >= 0 && (found = read(asked, &byte, 1)) < 0 && errno == EINTR) continue;
  return found == 1;
}

static int is_other(unsigned base, const uint8_t *bytes, uint32_t at) {
  return memcmp(bytes + at * SECTOR, bases[base].bytes + at * SECTOR, SECTOR) != 0;
}
static uint32_t count_others(unsigned base, const uint8_t *bytes) {
  uint32_t found = 0;
  for (uint32_t at = 0; at < image_size / SECTOR; ++at) found += (uint32_t)is_other(base, bytes, at);
  return found;
}
static void put_others(unsigned base, const uint8_t *bytes) {
  struct { uint32_t at; uint8_t bytes[SECTOR]; } row;
  for (row.at = 0; row.at < image_size / SECTOR; ++row.at) {
    if (!is_other(base, bytes, row.at)) continue;
    memcpy(row.bytes, bytes + row.at * SECTOR, SECTOR);
    put(&row, sizeof row);
  }
}

static void tell(struct told run, const uint8_t *input, const uint8_t *text) {
  run.patched = count_others(run.base, patched), run.left = count_others(run.base, image);
  run.left_said = (uint32_t)said_length;
  put(&run, sizeof run), put(input, run.input), put(was_said, run.was_said), put(text, run.script), put(run_said, run.said);
  put(said, said_length), put_others(run.base, patched), put_others(run.base, image);
}

/* The words of a new volume. */
static void say_new(unsigned version, const uint8_t *text, size_t length) {
  const char *versions[] = {"1", "2", "3"}, *units[] = {"512", "1024", "2048", "4096", "8192", "16384", "32768"};
  count_of_words = 3;
  say("--force"), say("--segments"), say("64"), say("--format"), say(versions[version - 1]);
  if (version == 3) say("--unit"), say(units[length ? text[0] % 7 : 0]);
}

/* The run itself, behind `check`: what failed in it. */
static void run_told(struct told *found, const unsigned *fails, const uint8_t *text, size_t length) {
  allocations = reads = writes = syncs = refused = failed_reads = failed_writes = failed_syncs = 0;
  no_allocation = fails[0], no_read = fails[1], no_write = fails[2], no_sync = fails[3], stop_at = fails[4];
  if (found->version) say_new(found->version, text, length);
  is_blocks = found->version != 0;
  found->status = (uint32_t)run(found->version ? "mkfs" : "run", text, length);
  is_blocks = 0;
  found->script = (uint32_t)length, found->said = (uint32_t)said_length;
  found->refused = refused, found->failed_reads = failed_reads;
  found->failed_writes = failed_writes, found->failed_syncs = failed_syncs;
  no_allocation = no_read = no_write = no_sync = stop_at = 0;
}

/* How a run is: what a stop leaves, in two bits; how often the unit is halved, in three; and the version of a new volume, 4 more. */
static void take_how(struct told *found, unsigned how) {
  found->how = how % 4, found->unit = how / 4 % 8;
  found->version = how / 32 > 4 ? how / 32 - 4 : 0;
  if (found->version) image_size = sizeof image;
  found->size = image_size / SECTOR;
}

int LLVMFuzzerTestOneInput(const uint8_t *from, size_t left) {
  struct told found = {.input = (uint32_t)left};
  const uint8_t *input = from;
  found.base = number(&from, &left, 1) % count_of_bases;
  begin(found.base);
  unsigned fails[5];
  for (int at = 0; at < 5; ++at) fails[at] = number(&from, &left, 2);
  take_how(&found, number(&from, &left, 1));
  patch(found.base, &from, &left);
  memcpy(synced, image, image_size);
  int is_told = is_asked();
  if (is_told) memcpy(patched, image, image_size);
  found.was_status = (uint32_t)run("check", NULL, 0);
  found.was_said = said_length < MOST_LINE ? (uint32_t)said_length : MOST_LINE;
  memcpy(was_said, said, found.was_said);
  size_t unit = found.version ? 1 : unit_of_image() >> found.unit;
  found.unit = unit ? (uint32_t)unit : 1;
  run_told(&found, fails, from, left);
  if (is_told) memcpy(run_said, said, said_length);
  crash(found.how, found.unit);
  found.left_status = (uint32_t)run("check", NULL, 0);
  if (is_told) tell(found, input, from);
  if (found.left_status != 0 && found.was_status == 0 && !found.version) abort();
  return 0;
}

int LLVMFuzzerInitialize(int *count, char ***given) {
  (void)count, (void)given;
  if (getenv("TOLD")) told = atoi(getenv("TOLD")), asked = atoi(getenv("ASKED"));
  FILE *file = fopen(getenv("BASES"), "rb");
  uint32_t size;
  while (file && count_of_bases < MOST_BASES && fread(&size, 4, 1, file) == 1) {
    if (size > sizeof image || fread(bases[count_of_bases].bytes, 1, size, file) != size) abort();
    for (uint32_t at = 0; at < size / SECTOR; ++at) {
      const uint8_t *sector = bases[count_of_bases].bytes + at * SECTOR;
      if (sector[0] || memcmp(sector, sector + 1, SECTOR - 1)) bases[count_of_bases].live[bases[count_of_bases].lives++] = at;
    }
    bases[count_of_bases++].size = size;
  }
  return !file || !count_of_bases;
}
