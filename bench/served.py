"""Runs a command of the program `lfs` over and over on one image, and tells the order of its reads.

A library in C, compiled with cc and loaded before the program's own, stops the program at its first read of the image, or at its first
read of standard input, where the volume is mounted. For each run it makes a copy of the process, which goes on from there, and notes each
sector of a file that the copy reads or writes.

    with Served(program, folder, ["check"], base) as served:             base: the bytes of an image
        ran = served.run({3: sector})                                    the same image but for sector 3
    with Served(program, folder, ["run"], base, Stop.INPUT) as served:   what each run finds mounted is the base
        ran = served.run({}, script)                                     with this on standard input

What a run or its changes left in the image stays until `restore`.
"""
import contextlib
import enum
import itertools
import mmap
import os
import struct
import subprocess
from collections.abc import Mapping
from typing import NamedTuple

SECTOR = 512
# A run that takes more of the processor's time is killed.
SECONDS = 20
# The sectors of one run that are noted; of a run with more, all are put back.
MOST = 1 << 18
WRITE = 1 << 31
# What a program that `rt try` built need not look at.
QUICK = "detect_leaks=0:detect_stack_use_after_return=0:malloc_context_size=0:max_malloc_fill_size=0"
NUMBERS = itertools.count()
HEAD = struct.Struct("=Q")
LIBRARY = r"""
#define _GNU_SOURCE
#include <fcntl.h>
#include <stdint.h>
#include <stdlib.h>
#include <sys/mman.h>
#include <sys/resource.h>
#include <sys/syscall.h>
#include <sys/wait.h>
#include <unistd.h>
enum { SECTOR = 512 };
static struct { uint64_t count; uint32_t places[MOST]; } *noted;
static void serve(void);
static void note(uint32_t kind, off_t from, size_t length) {
  for (uint32_t at = from / SECTOR; at < (from + length + SECTOR - 1) / SECTOR; ++at, ++noted->count)
    if (noted->count < MOST) noted->places[noted->count] = kind | at;
}
ssize_t read(int file, void *to, size_t length) {
  if (file == 0 && !noted) serve();
  return syscall(SYS_read, file, to, length);
}
ssize_t pread64(int file, void *to, size_t length, off_t from) {
  if (!noted && !getenv("AT_INPUT")) serve();
  if (noted) note(0, from, length);
  return syscall(SYS_pread64, file, to, length, from);
}
ssize_t pread(int file, void *to, size_t length, off_t from) { return pread64(file, to, length, from); }
ssize_t pwrite64(int file, const void *bytes, size_t length, off_t from) {
  if (noted) note(WRITE, from, length);
  return syscall(SYS_pwrite64, file, bytes, length, from);
}
ssize_t pwrite(int file, const void *bytes, size_t length, off_t from) { return pwrite64(file, bytes, length, from); }
int fsync(int file) { return (void)file, 0; }
int fdatasync(int file) { return (void)file, 0; }
static void serve(void) {
  int file = open(getenv("NOTED"), O_RDWR), go = atoi(getenv("GO")), done = atoi(getenv("DONE"));
  noted = mmap(NULL, sizeof *noted, PROT_READ | PROT_WRITE, MAP_SHARED, file, 0);
  if (file < 0 || noted == MAP_FAILED) _exit(9);
  close(file);
  char word;
  while (syscall(SYS_read, go, &word, 1) == 1) {
    noted->count = 0;
    for (int stream = 0; stream < 3; ++stream) {
      lseek(stream, 0, SEEK_SET);
      if (stream && ftruncate(stream, 0) < 0) _exit(9);
    }
    pid_t child = fork();
    if (child == 0) {
      struct rlimit most = {SECONDS, SECONDS};
      close(go), close(done), setrlimit(RLIMIT_CPU, &most);
      return;
    }
    int status = 0;
    if (child < 0 || waitpid(child, &status, 0) < 0 || write(done, &status, sizeof status) < 0) _exit(9);
  }
  _exit(0);
}
"""


class Ended(Exception):
    """The program ended before it came to where it stops."""


class Stop(enum.Enum):
    """Where the program stops from which the runs go on."""

    IMAGE = "IMAGE"
    INPUT = "INPUT"


class Ran(NamedTuple):
    """How a run ended: its exit status, less than 0 for a signal, what it wrote, and the sectors that it read, in order."""

    status: int
    output: bytes
    errors: bytes
    reads: tuple[int, ...]


def compile_library(folder: str) -> str:
    library = f"{folder}/served.so"
    if not os.path.exists(library):
        numbers = [f"-DMOST={MOST}", f"-DWRITE={WRITE}u", f"-DSECONDS={SECONDS}"]
        subprocess.run(["cc", "-O1", "-shared", "-fPIC", *numbers, "-x", "c", "-", "-o", library], input=LIBRARY.encode(), check=True)
    return library


class Served(contextlib.ExitStack):
    """A command of the program, ready to run on an image in a folder."""

    def __init__(self, program: str, folder: str, words: list[str], base: bytes, stop: Stop = Stop.IMAGE):
        super().__init__()
        self.base, self.touched = base, set()
        name = f"{next(NUMBERS)}"
        self.image = self.opened(f"{folder}/{name}.image")
        os.pwrite(self.image, base, 0)
        self.streams = [self.opened(f"{folder}/{name}.{stream}") for stream in ("input", "output", "errors")]
        self.note = self.opened(f"{folder}/{name}.noted")
        os.ftruncate(self.note, HEAD.size + 4 * MOST)
        self.noted = self.enter_context(mmap.mmap(self.note, HEAD.size + 4 * MOST))
        environment = {"LD_PRELOAD": compile_library(folder), "NOTED": f"{folder}/{name}.noted", "ASAN_OPTIONS": QUICK}
        self.start([program, *words, f"{folder}/{name}.image"], {**environment, f"AT_{stop.value}": ""})

    def opened(self, path: str) -> int:
        file = os.open(path, os.O_RDWR | os.O_CREAT | os.O_TRUNC, 0o600)
        self.callback(os.close, file)
        return file

    def start(self, words: list[str], environment: dict[str, str]) -> None:
        """Starts the program, which waits where it stops for a byte, and answers with a status."""
        (go, self.go), (self.done, done) = os.pipe(), os.pipe()
        environment = {**environment, "GO": str(go), "DONE": str(done)}
        streams = dict(zip(("stdin", "stdout", "stderr"), self.streams))
        self.process = subprocess.Popen(words, env=environment, pass_fds=(go, done), **streams)
        for file in (go, done):
            os.close(file)
        self.callback(self.process.wait)
        self.callback(os.close, self.done)
        self.callback(os.close, self.go)

    def run(self, changes: Mapping[int, bytes], script: bytes = b"") -> Ran:
        """A run on the image with these sectors in the place of its own, and with this on standard input."""
        for sector, content in changes.items():
            os.pwrite(self.image, content, SECTOR * sector)
        os.ftruncate(self.streams[0], 0)
        os.pwrite(self.streams[0], script, 0)
        try:
            os.write(self.go, b"g")
            status = struct.unpack("=i", os.read(self.done, 4))[0]
        except (BrokenPipeError, struct.error) as ended:
            raise Ended(os.pread(self.streams[1], SECTOR, 0).decode()) from ended
        output, errors = (os.pread(it, os.fstat(it).st_size, 0) for it in self.streams[1:])
        count = HEAD.unpack_from(self.noted)[0]
        places = struct.unpack_from(f"={min(count, MOST)}I", self.noted, HEAD.size)
        written = (it - WRITE for it in places if it & WRITE) if count <= MOST else range(len(self.base) // SECTOR)
        self.touched.update(changes, written)
        return Ran(os.waitstatus_to_exitcode(status), output, errors, tuple(it for it in places if not it & WRITE))

    def sector(self, sector: int) -> bytes:
        """What a sector of the image holds behind a run."""
        return os.pread(self.image, SECTOR, SECTOR * sector)

    def restore(self) -> None:
        """Makes the image the base again."""
        for sector in self.touched:
            os.pwrite(self.image, self.base[SECTOR * sector : SECTOR * (sector + 1)], SECTOR * sector)
        self.touched = set()
