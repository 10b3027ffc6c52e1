/* Ends a program within a write to an image, and spoils whole units of it, as a device may whose power goes. It is loaded before the
   program's own library (LD_PRELOAD), and bench/spoil drives it.

   SPOIL_IMAGE is the image, and SPOIL_AT tells within the write of which unit the power goes, counted from 1. That unit is spoilt, and
   with SPOIL_ALL each unit that was written since the last sync that succeeded. */
#define _GNU_SOURCE
#include <signal.h>
#include <stdlib.h>
#include <string.h>
#include <sys/stat.h>
#include <sys/syscall.h>
#include <unistd.h>

enum { UNIT = 4096, UNITS = 1 << 16 };

static unsigned char written[UNITS];
static long count;

static int is_image(int file) {
  const char *path = getenv("SPOIL_IMAGE");
  struct stat there, this;
  return path && stat(path, &there) == 0 && fstat(file, &this) == 0 && there.st_dev == this.st_dev && there.st_ino == this.st_ino;
}

/* Turns each bit of a unit. */
static void spoil(int file, long unit) {
  unsigned char bytes[UNIT];
  ssize_t size = syscall(SYS_pread64, file, bytes, (size_t)UNIT, (off_t)unit * UNIT);
  for (ssize_t at = 0; at < size; ++at) bytes[at] ^= 0xff;
  if (size < 0 || syscall(SYS_pwrite64, file, bytes, (size_t)size, (off_t)unit * UNIT) != size) _exit(9);
}

static void stop(int file, long unit) {
  for (long other = 0; getenv("SPOIL_ALL") && other < UNITS; ++other)
    if (written[other] && other != unit) spoil(file, other);
  spoil(file, unit);
  raise(SIGKILL);
}

/* Writes what lies in one unit, unless the power goes. */
static ssize_t write_in_unit(int file, const char *bytes, size_t size, off_t from) {
  const char *last = getenv("SPOIL_AT");
  long unit = from / UNIT;
  if (unit >= UNITS) _exit(9);
  if (last && ++count == atol(last)) stop(file, unit);
  written[unit] = 1;
  return syscall(SYS_pwrite64, file, bytes, size, from);
}

ssize_t pwrite64(int file, const void *bytes, size_t size, off_t from) {
  if (!is_image(file)) return syscall(SYS_pwrite64, file, bytes, size, from);
  for (size_t at = 0, part; at < size; at += part) {
    part = UNIT - (size_t)(from + (off_t)at) % UNIT;
    if (part > size - at) part = size - at;
    if (write_in_unit(file, (const char *)bytes + at, part, from + (off_t)at) != (ssize_t)part) return -1;
  }
  return (ssize_t)size;
}

ssize_t pwrite(int file, const void *bytes, size_t size, off_t from) { return pwrite64(file, bytes, size, from); }

static int synced(int file, long how) {
  int failed = (int)syscall(how, file);
  if (!failed && is_image(file)) memset(written, 0, sizeof written);
  return failed;
}

int fsync(int file) { return synced(file, SYS_fsync); }

int fdatasync(int file) { return synced(file, SYS_fdatasync); }
