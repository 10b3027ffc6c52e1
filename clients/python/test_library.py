"""Tests of the client over the libraries: python3 test_library.py LIBRARY. LIBRARY is one of the shared objects, and the other one stands
beside it. Some need the program too, which LFS of the environment names, or gcc.

Where they are loaded over the program, as `test_pansuyog.py` does, those of the libraries alone are skipped."""
import atexit
import contextlib
import errno
import fcntl
import functools
import glob
import os
import random
import re
import resource
import shutil
import stat
import subprocess
import sys
import tempfile
import threading
import unittest
from unittest import mock

import building
import pansuyog
import stopping
import test_pansuyog
from test_pansuyog import HERE, Archives, BesideTheProgram, Calls, FileObjects, Files, OnAVolume, OnlyRead, Page, Refusals, changes_of, put  # noqa: F401, whose tests run here too

CASES = f"{HERE}/../../crates/lfs_trials/data"
RECORDS = int(os.environ.get("PANSUYOG_RECORDS", "3600"))


class Library:
    """Volumes that the library over a file makes and mounts. The one with orders stands beside it."""

    name = "library"

    def __init__(self, path):
        self.path, self.orders = (os.path.join(os.path.dirname(path), f"lib{it}.so.0") for it in ("pansuyog_file", "pansuyog"))

    def make(self, image, segments, format=1, **how):
        pansuyog.make(image, segments, format=format, library=self.path, **how)

    def mounted(self, image, **how):
        return pansuyog.Volume(image, library=self.path, **how)

    def words(self):
        return ["--library", self.path]

    def shown(self, code, image):
        return code.replace('"disk.img"', f"{image!r}, library={self.path!r}")


def used():
    return test_pansuyog.used


def more_changes_of(volume):
    """Calls that may write, of the libraries alone."""
    return [volume.clean_once, lambda: volume.record_begin(10), lambda: volume.record_line("2026-01-01", "a"), volume.record_save]


class OfTheLibrary(unittest.TestCase):
    def setUp(self):
        if used().name != Library.name:
            self.skipTest("of the libraries alone")
        super().setUp()


class OnADevice(OfTheLibrary, OnAVolume):
    """A volume on a device of the caller's own, which is an image all the same."""

    def mounted(self, device=None, **how):
        device = device or stopping.Device(self.image, random)
        volume = pansuyog.Volume.over(device, library=used().orders, **how)
        self.addCleanup(volume.close)
        return volume


class CallsOnADevice(OnADevice, Calls):
    pass


class FilesOnADevice(OnADevice, Files):
    pass


class FileObjectsOnADevice(OnADevice, FileObjects):
    pass


FAULTS = f"{HERE}/../c/tests/faults.c"
NO_LOCKS = """
#include <errno.h>
int flock(int fd, int how) {
    (void)fd, (void)how;
    errno = ENOLCK;
    return -1;
}
"""
# No read gives anything while the environment says so.
BROKEN_READS = """
#define _GNU_SOURCE
#include <dlfcn.h>
#include <errno.h>
#include <stdlib.h>
#include <unistd.h>

#define READS(name, offset_type)                                          \\
    ssize_t name(int fd, void *bytes, size_t count, offset_type offset) { \\
        errno = EIO;                                                      \\
        if (getenv("BROKEN") != NULL) return -1;                          \\
        return ((__typeof__(&name))dlsym(RTLD_NEXT, #name))(fd, bytes, count, offset); \\
    }
READS(pread, off_t)
READS(pread64, off64_t)
"""


@functools.lru_cache(maxsize=None)
def preloaded(path):
    """What is made of a file in C, to be loaded before a program whose calls of the system are to fail."""
    folder = tempfile.mkdtemp()
    atexit.register(shutil.rmtree, folder)
    subprocess.run(["gcc", "-O2", "-shared", "-fPIC", path, "-o", f"{folder}/faults.so", "-ldl"], check=True)
    return f"{folder}/faults.so"


# What a program begins with that a test runs. Its words are the library and the image, and an exception is told in a line.
PROGRAM = """
import sys
import pansuyog
library, image = sys.argv[1:]

def tell(error):
    print(f"{type(error).__name__} {error.needs_restart} {error}", flush=True)

"""


class WhereTheSystemFails(OfTheLibrary):
    """Programs whose calls of the system fail, also those that the library makes."""

    def setUp(self):
        super().setUp()
        if shutil.which("gcc") is None:
            self.skipTest("for want of gcc")
        folder = tempfile.TemporaryDirectory()
        self.addCleanup(folder.cleanup)
        self.folder, self.image = folder.name, f"{folder.name}/disk.img"

    def run_with(self, code, fails="", stop=None, faults=FAULTS):
        """Runs a program, some of whose calls fail, or which ends at one of those that change a file: its status and its lines."""
        env = {**os.environ, "PYTHONPATH": HERE, "LD_PRELOAD": preloaded(faults), "FAULTS": fails, **({} if stop is None else {"STOP": str(stop)})}
        words = [sys.executable, "-B", "-c", PROGRAM + code, used().path, self.image]
        ran = subprocess.run(words, env=env, stdout=subprocess.PIPE, text=True, check=False)
        return ran.returncode, ran.stdout.splitlines()


def spelt(word, answer):
    """What a script writes of an answer."""
    if word == "pread":
        return "ok " + pansuyog._hex(answer)
    if word == "readlink":
        return "ok " + pansuyog._escape(answer)
    if word in ("stat", "lstat", "space"):
        return " ".join(["ok", *map(str, answer)])
    if word == "readdir":
        return "\n".join([f"ok {len(answer)}", *(f"{pansuyog._escape(it.name)} {it.number} {it.kind}" for it in answer)])
    if word == "tree":
        return "\n".join([f"ok {len(answer)}", *map(row_of, answer)])
    return "ok" if answer is None else f"ok {answer}"


def row_of(row):
    head = pansuyog._escape(row.head) if row.kind == "link" else pansuyog._hex(row.head)
    return " ".join(map(str, [row.directory, pansuyog._escape(row.name), row.kind, row.number, row.links, row.size, head]))


def value_of(word, place, text):
    """An argument of a line: bytes for data, paths and texts, else a number."""
    if word == "pwrite" and place == 2:
        return pansuyog._unhex(text)
    return int(text) if text.isdigit() else pansuyog._unescape(text)


def reply(volume, line):
    """The reply to a line, whose call is the method of its word."""
    word, *words = line.split(" ")
    try:
        call = getattr(volume, "close_handle" if word == "close" else word)
        return spelt(word, call(*(value_of(word, place, text) for place, text in enumerate(words))))
    except pansuyog.Refused as refused:
        return f"err {type(refused).__name__}"


def text_of(path):
    with open(path, encoding="ascii") as file:
        return file.read()


class Scripts(unittest.TestCase):
    def test_each_script_has_its_replies(self):
        paths = [os.path.splitext(it)[0] for it in glob.glob(f"{CASES}/*.script")]
        # A bad line is a matter of the language alone.
        paths = [it for it in paths if "bad " not in text_of(f"{it}.replies")]
        self.assertGreaterEqual(len(paths), 68)
        for path in sorted(paths):
            with self.subTest(os.path.basename(path)), tempfile.TemporaryDirectory() as folder:
                self.carry_out(path, f"{folder}/disk.img")

    def mounted(self, image):
        return used().mounted(image)

    def carry_out(self, path, image):
        segments = 1024 if ".1024" in path else 64
        version = {".v2": 2, ".v3": 3}.get(path[-3:], 1)
        used().make(image, segments, version, unit=8 if version == 3 else 1)
        with self.mounted(image) as volume:
            replies = [reply(volume, line) for line in text_of(f"{path}.script").splitlines()]
        self.assertEqual("\n".join(replies).split("\n"), text_of(f"{path}.replies").splitlines() or [""])
        if os.path.exists(f"{path}.tree"):
            with self.mounted(image) as volume:
                self.assertEqual(reply(volume, "tree"), text_of(f"{path}.tree").rstrip("\n"))


class ScriptsOnADevice(OfTheLibrary, Scripts):
    def mounted(self, image):
        return pansuyog.Volume.over(stopping.Device(image, random), library=used().orders)


class Shapes(OfTheLibrary, OnAVolume):
    """Volumes of format 3, and shapes of which there are none."""

    # Numbers of segments, formats and units that no volume has.
    UNKNOWN = [(0, 3, 1), (65, 3, 1), (1032, 3, 1), (64, 0, 1), (64, 4, 1), (64, 3, 0), (64, 3, 3), (64, 3, 128), (64, 1, 2), (64, 2, 8)]

    def setUp(self):
        super().setUp()
        os.unlink(self.image)

    def keeps(self, shape, mounted):
        with mounted() as volume:
            self.assertEqual((volume.shape(), volume.version()), (shape, shape.format))
            volume.write_file("/f", b"a" * 3_000)
            volume.sync()
            volume.mkdir("/lost")
        with mounted() as volume:
            self.assertEqual((volume.shape(), volume.read("/f"), len(volume.readdir("/"))), (shape, b"a" * 3_000, 1))

    def test_a_volume_of_format_3_keeps_its_shape(self):
        for segments, unit in ((64, 1), (72, 8), (1024, 64)):
            with self.subTest(segments=segments, unit=unit):
                used().make(self.image, segments, 3, unit=unit)
                self.assertEqual(os.path.getsize(self.image), 512 * (256 + 64 * segments))
                self.keeps(pansuyog.Shape(segments, 3, unit), self.mounted)
                os.unlink(self.image)

    def test_a_device_of_ones_own_keeps_its_shape(self):
        sectors = pansuyog.sectors_of(72, 3, unit=8, library=used().orders)
        self.assertEqual(sectors, 256 + 64 * 72)
        put(self.image, bytes(512 * sectors))
        device = stopping.Device(self.image, random)
        pansuyog.make_over(device, 72, 3, unit=8, library=used().orders)
        self.keeps(pansuyog.Shape(72, 3, 8), lambda: pansuyog.Volume.over(device, library=used().orders))

    def test_an_upgrade_is_told(self):
        used().make(self.image, 64)
        volume = self.mounted()
        self.assertEqual(volume.shape(), pansuyog.Shape(64))
        volume.upgrade()
        self.assertEqual(volume.shape(), pansuyog.Shape(64, 2))

    def test_what_no_volume_has_is_refused(self):
        for segments, format, unit in self.UNKNOWN:
            with self.subTest(segments=segments, format=format, unit=unit):
                self.assertRaises(pansuyog.Inval, used().make, self.image, segments, format, unit=unit)
                self.assertRaises(pansuyog.Inval, pansuyog.sectors_of, segments, format, unit=unit, library=used().orders)
        self.assertEqual(os.listdir(os.path.dirname(self.image)), [])

    def test_a_shape_is_looked_at_before_the_size_of_a_device(self):
        put(self.image, bytes(512 * (256 + 64 * 64 - 1)))
        device = stopping.Device(self.image, random)

        def make(segments, format, unit):
            pansuyog.make_over(device, segments, format, unit=unit, library=used().orders)

        for shape in self.UNKNOWN:
            self.assertRaises(pansuyog.Inval, make, *shape)
        self.assertRaises(pansuyog.TooSmall, make, 64, 3, 8)
        self.assertEqual(device.writes, 0)
        make(64, 2, 1)


class Records(OfTheLibrary, OnAVolume):
    """A recorder's lines and files, by the rules in docs/LIBRARY.md."""

    def files(self, volume):
        return {os.fsdecode(entry.name): volume.read(b"/" + entry.name) for entry in volume.readdir("/")}

    def test_lines_go_to_files(self):
        volume = self.mounted()
        volume.mkdir("/00000000-2025-12-31")
        volume.record_begin(10, 2)
        volume.record_line("2026-01-01", "one")
        volume.record_line(b"2026-01-01", b"and two")
        volume.rmdir("/00000000-2025-12-31")
        self.assertEqual(self.files(volume), {"00000001-2026-01-01": b"one\nand two\n"})
        volume.record_line("2026-01-01", "three")
        volume.record_line("2026-01-02", "")
        self.assertEqual(self.files(volume), {"00000002-2026-01-01": b"three\n", "00000003-2026-01-02": b"\n"})
        volume.record_line("2026-01-01", "back")
        self.assertEqual(self.files(volume), {"00000003-2026-01-02": b"\n", "00000004-2026-01-01": b"back\n"})

    def test_what_is_no_line_is_refused(self):
        volume = self.mounted()
        volume.record_begin(100)
        lines = ["a\nb", "\n", b"a" * 65_536]
        for day, line in [*(("2026-01-01", line) for line in lines), *((day, "a") for day in ("", "2026-1-1", "2026/01/01", "2026-01-01 "))]:
            self.assertRaises(pansuyog.Inval, volume.record_line, day, line)
        self.assertEqual(volume.readdir("/"), [])
        volume.record_line("2026-01-01", b"a" * 65_535)
        self.assertEqual(self.files(volume), {"00000001-2026-01-01": b"a" * 65_535 + b"\n"})
        for number in (-1, 1 << 32):
            self.assertRaises(ValueError, volume.record_begin, number)
            self.assertRaises(ValueError, volume.record_begin, 1, number)

    def test_a_recorder_goes_on_in_the_newest_file(self):
        volume = self.mounted()
        for call in (lambda: volume.record_line("2026-01-01", "a"), volume.record_save):
            self.assertRaises(pansuyog.Inval, call)
        # What a recorder had open is given up as another begins.
        for _ in range(100):
            volume.record_begin(100)
            volume.record_line("2026-01-01", "a")
        volume.record_save()
        volume.record_line("2026-01-02", "lost")
        volume.kill()
        volume = self.mounted()
        self.assertRaises(pansuyog.Inval, volume.record_line, "2026-01-01", "a")
        self.assertEqual(self.files(volume), {"00000001-2026-01-01": b"a\n" * 50, "00000002-2026-01-01": b"a\n" * 50})
        volume.pwrite(volume.open("/00000002-2026-01-01"), 100, b"half")
        volume.record_begin(200)
        volume.record_line("2026-01-01", "whole")
        self.assertEqual(self.files(volume)["00000003-2026-01-01"], b"whole\n")

    def test_the_oldest_file_goes(self):
        """A line of 65,536 bytes needs 128 blocks, one of pointers and an inode, which count seven times each, and the eighth of a block
        for its name. An empty volume of 64 segments has a need of 727, and its limit is 3,008."""
        volume = self.mounted()
        volume.write_file("/other", b"a")
        volume.record_begin(1)
        for _ in range(40):
            volume.record_line("2026-01-01", b"a" * 65_535)
        self.assertEqual(self.names(volume), [*(f"000000{number}-2026-01-01".encode() for number in range(26, 41)), b"other"])


class RecordsOnADevice(OnADevice, Records):
    pass


class Sessions(OfTheLibrary, OnAVolume):
    def test_a_file_without_names_is_gone_after_a_stop(self):
        volume = self.mounted()
        handle = volume.create("/f")
        self.assertEqual(volume.pwrite(handle, 0, b"ab"), 2)
        volume.unlink("/f")
        self.assertEqual(volume.pread(handle, 0, 9), b"ab")
        self.assertEqual(volume.create("/h"), 1)
        volume.sync()
        volume.kill()
        volume = self.mounted()
        self.assertEqual(volume.tree(), [pansuyog.TreeRow(1, b"h", "file", 3, 1, 0, b"")])
        self.assertEqual(volume.create("/g"), 0)
        self.assertEqual(volume.stat("/g"), pansuyog.Stat(2, "file", 1, 0))

    def test_idle_moments_clean_pass_by_pass(self):
        volume = self.mounted()
        wanted = bytearray(b"9" * (1 << 20))
        volume.write_file("/f", wanted)
        handle = volume.open("/f")
        self.assertIs(volume.is_cleaning_due(), False)
        volume.clean_once()

        def is_due_behind(number):
            """Overwrites all over the file leave segments that are partly in use."""
            start = 512 * (number * 7_919 % 2_048)
            wanted[start : start + 512] = bytes([1 + number % 255]) * 512
            volume.pwrite(handle, start, wanted[start : start + 512])
            volume.sync()
            return volume.is_cleaning_due()

        def is_enough_behind(_):
            volume.clean_once()
            return not volume.is_cleaning_due()

        self.assertTrue(any(map(is_due_behind, range(2_000))))
        # Each pass gains a segment at least, and 16 are to be clean.
        self.assertTrue(any(map(is_enough_behind, range(16))))
        volume.kill()
        self.assertEqual(self.mounted().read("/f"), wanted)

    def test_a_closed_volume_takes_no_call(self):
        volume = self.mounted()
        volume.close()
        volume.close()
        self.assertRaises(ValueError, volume.sync)
        self.assertRaises(ValueError, volume.readdir, "/")

    def test_a_volume_that_is_forgotten_gives_its_image_back(self):
        used().mounted(self.image)
        self.mounted()

    def test_threads_share_a_volume(self):
        volume = self.mounted()

        def record(number):
            handle = volume.create(f"/{number}")
            for place in range(200):
                volume.pwrite(handle, 8 * place, b"%08d" % (1_000 * number + place))
                self.assertIn(len(volume.readdir("/")), range(1, 5))
            volume.sync()

        threads = [threading.Thread(target=record, args=(number,)) for number in range(4)]
        for thread in threads:
            thread.start()
        for thread in threads:
            thread.join()
        volume.kill()
        volume = self.mounted()
        for number in range(4):
            self.assertEqual(volume.read(f"/{number}"), b"".join(b"%08d" % (1_000 * number + place) for place in range(200)))

    def test_threads_share_files(self):
        volume = self.mounted()

        def put_some(number):
            for place in range(25):
                volume.append("/log", b"%08d" % (1_000 * number + place))
                volume.write_file(f"/{number}", b"%d" % number * 2_000 * place)

        threads = [threading.Thread(target=put_some, args=(number,)) for number in range(4)]
        for thread in threads:
            thread.start()
        for thread in threads:
            thread.join()
        records = volume.read("/log")
        found = sorted(int(records[at : at + 8]) for at in range(0, len(records), 8))
        self.assertEqual(found, [1_000 * number + place for number in range(4) for place in range(25)])
        for number in range(4):
            self.assertEqual(volume.read(f"/{number}"), b"%d" % number * 48_000)

    def test_both_libraries_serve_one_program(self):
        with self.mounted() as volume:
            volume.write_file("/f", b"kept")
            with tempfile.TemporaryDirectory() as folder:
                shutil.copy(self.image, f"{folder}/copy")
                with pansuyog.Volume.over(stopping.Device(f"{folder}/copy", random), library=used().orders) as other:
                    self.assertIsInstance(other, pansuyog.Volume)
                    self.assertEqual(other.read("/f"), volume.read("/f"))

    def test_another_library_is_refused(self):
        with self.assertRaisesRegex(ImportError, "libpansuyog.so.0 is another one: libpansuyog_file.so.0 is wanted$"):
            pansuyog.Volume(self.image, library=used().orders)
        with self.assertRaisesRegex(ImportError, "libpansuyog_file.so.0 is another one: libpansuyog.so.0 is wanted$"):
            pansuyog.Volume.over(stopping.Device(self.image, random), library=used().path)

    def test_no_image_is_read_whole_or_kept(self):
        used().make(self.image, 1_024, force=True)
        before, resident = bytes_read(), bytes_resident()
        with self.mounted() as volume:
            self.assertLess(bytes_read() - before, 1_000_000)
            handle = volume.create("/f")
            for number in range(2_000):
                volume.pwrite(handle, 512 * (number * 7_919 % 2_000), b"%04d" % number * 128)
            volume.sync()
            self.assertLess(bytes_resident() - resident, 8_000_000)


def bytes_read():
    """How many bytes this process has read so far."""
    return int(re.search(r"^rchar: (\d+)", text_of("/proc/self/io"), re.M).group(1))


def bytes_resident():
    return int(text_of("/proc/self/statm").split()[1]) * resource.getpagesize()


# Each byte that makes a new volume of 64 segments a damaged one: its sector, its place, the byte, and the stage that fails.
DAMAGES = [(5, 8, 1, 1), (2, 0, 4, 2), (1, 32, 5, 3), (4, 4, 0, 3), (3, 16, 1, 4), (3, 32, 5, 7), (2, 8, 2, 8), (5, 2, 2, 9), (3, 8, 3, 13)]


def is_no_link(*_):
    """How a file system answers that has no second names of a file."""
    raise OSError(errno.EPERM, os.strerror(errno.EPERM))


# What `make` does to the disk, but for what the library does.
STEPS = ("open", "ftruncate", "pwrite", "fsync", "link", "rename", "unlink")
MAKE = """
try:
    pansuyog.make(image, 64, library=library, **{how})
except pansuyog.Refused as error:
    tell(error)
"""


class Made(WhereTheSystemFails):
    """New images, where the library's calls of the system fail, or a stop comes."""

    def test_a_new_image_is_there_whole_or_not_at_all(self):
        for fails in ("", "link"):
            for how in ({}, {"reserve": True}, {"force": True}):
                stops, empty = 0, 0
                while self.run_with(MAKE.format(how=how), fails, stops)[0] == 9:
                    empty += self.is_left_empty()
                    stops += 1
                # It is cut and made longer; both slots, the chunk, and a slot again; three syncs; its name, and the folder.
                self.assertGreaterEqual(stops, 10)
                # Where a file can't have two names a stop may come between an empty file of the name and the rename.
                self.assertEqual(empty, 1 if fails else 0)
                self.clear()

    def is_left_empty(self):
        """Looks at what a stop left, and makes the image anew: whether there was an empty one."""
        self.assertLessEqual(set(os.listdir(self.folder)), {"disk.img", "disk.img.lfs-make"})
        is_there = os.path.exists(self.image)
        is_empty = is_there and os.path.getsize(self.image) == 0
        if is_there:
            self.assertRaises(pansuyog.Image, used().make, self.image, 64)
            os.rename(self.image, f"{self.folder}/aside")
        used().make(self.image, 64)
        if is_there and not is_empty:
            used().mounted(f"{self.folder}/aside").close()
        if is_there:
            os.remove(f"{self.folder}/aside")
        self.clear()
        return is_empty

    def clear(self):
        """Nothing but a volume is there. It goes."""
        used().mounted(self.image).close()
        self.assertEqual(os.listdir(self.folder), ["disk.img"])
        os.remove(self.image)

    def test_a_failure_of_the_library_is_told_and_leaves_nothing(self):
        told = {
            "write": "Device False {}: a write of it failed: No space left on device",
            "sync": "Device True {}: a write or a sync of it failed: Input/output error",
        }
        for fails, text in told.items():
            self.assertEqual(self.run_with(MAKE.format(how={}), fails), (0, [text.format(self.image)]))
            self.assertEqual(os.listdir(self.folder), [])


class Making(OfTheLibrary):
    """New images, where a file may have two names, and where it can't."""

    def setUp(self):
        super().setUp()
        folder = tempfile.TemporaryDirectory()
        self.addCleanup(folder.cleanup)
        self.folder, self.image = folder.name, f"{folder.name}/disk.img"

    @contextlib.contextmanager
    def steps(self, has_links, around):
        """Lets each step of a `make` go through a function, which is given the call and its name."""
        with contextlib.ExitStack() as stack:
            for name in STEPS:
                call = is_no_link if name == "link" and not has_links else getattr(os, name)
                stack.enter_context(mock.patch(f"os.{name}", around(call, name)))
            yield

    def test_the_name_comes_once_the_volume_is_there(self):
        for has_links, wanted in ((True, ["link", "unlink", "open", "fsync"]), (False, ["link", "open", "rename", "open", "fsync"])):
            calls = []

            def looking(call, name):
                def made(*arguments):
                    if name == "link":
                        shutil.copy(f"{self.image}.lfs-make", f"{self.folder}/aside")
                        used().mounted(f"{self.folder}/aside").close()
                    calls.append(name)
                    return call(*arguments)

                return made

            with self.steps(has_links, looking):
                used().make(self.image, 64)
            self.assertEqual([it for it in calls if it != "pwrite"][-len(wanted) :], wanted)
            os.remove(self.image)

    def test_a_name_that_another_takes_meanwhile_is_refused(self):
        for has_links in (True, False):

            def taking(call, name):
                def made(*arguments):
                    if name == "link":
                        put(self.image, b"another's")
                    return call(*arguments)

                return made

            with self.steps(has_links, taking):
                self.assertRaisesRegex(pansuyog.Image, "it is there already", used().make, self.image, 64)
            with open(self.image, "rb") as file:
                self.assertEqual(file.read(), b"another's")
            self.assertEqual(os.listdir(self.folder), ["disk.img"])
            os.remove(self.image)

    def test_a_second_name_of_a_whole_image_does_no_harm(self):
        used().make(self.image, 64)
        with used().mounted(self.image) as volume:
            volume.write_file("/f", b"kept")
            os.link(self.image, f"{self.image}.lfs-make")
            os.rename(self.image, f"{self.folder}/aside")
            used().make(self.image, 64)
        self.assertEqual(sorted(os.listdir(self.folder)), ["aside", "disk.img"])
        self.assertEqual(used().mounted(f"{self.folder}/aside").read("/f"), b"kept")

    def test_one_make_at_a_time(self):
        with open(f"{self.image}.lfs-make", "wb") as file:
            fcntl.flock(file, fcntl.LOCK_EX)
            self.assertRaisesRegex(pansuyog.Image, "it is in use", used().make, self.image, 64)
        used().make(self.image, 64)
        self.assertEqual(os.listdir(self.folder), ["disk.img"])

    def test_a_link_in_the_place_of_an_unmade_image_is_not_followed(self):
        put(f"{self.folder}/letter", b"a letter")
        os.symlink("letter", f"{self.image}.lfs-make")
        self.assertRaisesRegex(pansuyog.Image, "symbolic links", used().make, self.image, 64)
        self.assertEqual(os.path.getsize(f"{self.folder}/letter"), 8)

    def test_each_failure_is_told_and_leaves_nothing(self):
        full = OSError(errno.ENOSPC, os.strerror(errno.ENOSPC))
        told = {
            "ftruncate": "the file can't have the length of the volume",
            "link": "the system refuses to open it or to make it",
        }
        for name, text in told.items():
            with mock.patch(f"os.{name}", side_effect=full), self.assertRaises(pansuyog.Image) as caught:
                used().make(self.image, 64)
            self.assertEqual(str(caught.exception), f"{self.image}: {text}: No space left on device")
            self.assertFalse(caught.exception.needs_restart)
            self.assertEqual(os.listdir(self.folder), [])
        with mock.patch("os.pwrite", side_effect=full):
            with self.assertRaisesRegex(pansuyog.Image, f"^{self.image}: there is no room for all of its sectors: No space left on device$"):
                used().make(self.image, 64, reserve=True)
        self.assertEqual(os.listdir(self.folder), [])
        broken = OSError(errno.EIO, os.strerror(errno.EIO))
        for name, what in (("pwrite", "write"), ("fsync", "sync")):
            with mock.patch(f"os.{name}", side_effect=broken):
                with self.assertRaisesRegex(pansuyog.Device, f"^{self.image}: a {what} of it failed: Input/output error$"):
                    used().make(self.image, 64, reserve=True)
            self.assertEqual(os.listdir(self.folder), [])

    def test_a_folder_that_is_not_synced_is_told(self):
        sync = os.fsync

        def failing(file):
            if stat.S_ISDIR(os.fstat(file).st_mode):
                raise OSError(errno.EIO, os.strerror(errno.EIO))
            sync(file)

        with mock.patch("os.fsync", failing), self.assertRaises(pansuyog.Image) as caught:
            used().make(self.image, 64)
        self.assertEqual(str(caught.exception), f"{self.image}: the folder that has it can't be synced: Input/output error")
        self.assertTrue(caught.exception.needs_restart)
        self.assertEqual(os.listdir(self.folder), [])

    def test_what_another_writes_meanwhile_stays(self):
        lock = fcntl.flock

        def writing(file, kind):
            lock(file, kind)
            if os.path.exists(self.image):
                put(self.image, b"another's")

        with mock.patch("os.link", is_no_link), mock.patch("fcntl.flock", writing):
            self.assertRaisesRegex(pansuyog.Image, "it is there already", used().make, self.image, 64)
        with open(self.image, "rb") as file:
            self.assertEqual(file.read(), b"another's")
        self.assertEqual(os.listdir(self.folder), ["disk.img"])

    def test_a_file_that_cannot_be_so_long_keeps_its_content(self):
        put(self.image, b"a letter")
        with mock.patch("os.ftruncate", side_effect=OSError(errno.EFBIG, os.strerror(errno.EFBIG))):
            self.assertRaisesRegex(pansuyog.Image, "File too large$", lambda: used().make(self.image, 64, force=True))
        self.assertEqual(os.path.getsize(self.image), 8)


# Has a volume until it gets a line.
HOLDING = """
import sys
import pansuyog
library, image, *reads = sys.argv[1:]
with pansuyog.Volume(image, library=library, read_only=bool(reads)):
    print("there", flush=True)
    input()
"""


class Images(OfTheLibrary, OnAVolume):
    def test_a_damaged_volume_tells_its_stage(self):
        for sector, place, byte, stage in DAMAGES:
            used().make(self.image, 64, force=True)
            with open(self.image, "r+b") as file:
                file.seek(512 * sector + place)
                file.write(bytes([byte]))
            with self.assertRaisesRegex(pansuyog.Damaged, f"^{self.image}: stage {stage} of its check fails$"):
                used().mounted(self.image)

    def test_what_is_no_volume_is_refused(self):
        with open(self.image, "r+b") as file:
            file.write(bytes(1024))
        self.assertRaises(pansuyog.NoCheckpoint, used().mounted, self.image)
        folder = os.path.dirname(self.image)
        self.assertRaisesRegex(pansuyog.Image, "it is a folder", used().mounted, folder)
        self.assertRaisesRegex(pansuyog.Image, "it is a folder", used().make, folder, 64)
        self.assertRaisesRegex(pansuyog.Image, "neither a regular file", used().mounted, "/dev/null")
        self.assertRaisesRegex(pansuyog.Image, "it is a folder", lambda: used().make(folder, 64, force=True))
        self.assertRaisesRegex(pansuyog.Image, "neither a regular file", used().make, "/dev/null", 64)
        self.assertRaisesRegex(pansuyog.Inval, "format 1, 2 or 3", used().make, self.image, 64, 4)

    def test_a_disk_that_is_full_halts_a_volume(self):
        with self.mounted() as volume:
            handle = volume.create("/f")
            limits = resource.getrlimit(resource.RLIMIT_FSIZE)
            resource.setrlimit(resource.RLIMIT_FSIZE, (100, limits[1]))
            try:
                with self.assertRaises(pansuyog.Halted) as caught:
                    volume.append("/f", b"x")
            finally:
                resource.setrlimit(resource.RLIMIT_FSIZE, limits)
            cause = f"it can't be written: a write of {self.image} failed: File too large"
            self.assertEqual(str(caught.exception), f"sync: {cause}")
            # A write that finds no room leaves nothing in doubt.
            self.assertFalse(caught.exception.needs_restart)
            with self.assertRaises(pansuyog.Halted) as caught:
                volume.close_handle(handle)
            self.assertEqual(str(caught.exception), f"close {handle}: {cause}")
        self.assertEqual(self.mounted().readdir("/"), [])

    def test_an_image_that_is_cut_is_told(self):
        with self.mounted() as volume:
            volume.write_file("/f", b"x" * 70_000)
        with self.mounted() as volume:
            handle = volume.open("/f")
            os.truncate(self.image, 4_096)
            with self.assertRaises(pansuyog.Device) as caught:
                volume.pread(handle, 0, 5)
            self.assertEqual(str(caught.exception), f"pread {handle} 0 5: a read of {self.image} failed: it ends before that")
            os.truncate(self.image, 512 * (2 + 64 * 64))
            # What it read before is there, and the volume goes on.
            self.assertEqual(volume.stat("/f").size, 70_000)

    def test_what_is_only_read_is_not_cleaned(self):
        with self.mounted() as volume:
            volume.mkdir("/d")
            volume.write_file("/d/f", b"x")
        with self.mounted(read_only=True) as volume:
            for change in [*changes_of(volume), *more_changes_of(volume)]:
                self.assertRaises(pansuyog.ReadOnly, change)
            self.assertIs(volume.is_cleaning_due(), False)

    def test_another_process_is_kept_out(self):
        for more in ([], ["reads"]):
            words = [sys.executable, "-B", "-c", HOLDING, used().path, self.image, *more]
            with subprocess.Popen(words, env={**os.environ, "PYTHONPATH": HERE}, stdin=subprocess.PIPE, stdout=subprocess.PIPE, text=True) as child:
                self.assertEqual(child.stdout.readline(), "there\n")
                self.assertRaisesRegex(pansuyog.Image, "it is in use", used().mounted, self.image)
                if more:
                    used().mounted(self.image, read_only=True).close()
                else:
                    self.assertRaisesRegex(pansuyog.Image, "it is in use", used().mounted, self.image, read_only=True)
                child.communicate("\n")
            self.assertEqual(child.returncode, 0)
            used().mounted(self.image).close()

    def test_each_descriptor_is_given_back(self):
        def descriptors():
            return len(os.listdir("/proc/self/fd"))

        before = descriptors()
        for how in ({}, {"read_only": True}):
            used().mounted(self.image, **how).close()
            self.assertEqual(descriptors(), before)
        os.truncate(self.image, 512)
        self.assertRaises(pansuyog.TooSmall, used().mounted, self.image)
        self.assertEqual(descriptors(), before)
        with mock.patch("os.fsync", side_effect=OSError(errno.EINVAL, os.strerror(errno.EINVAL))):
            self.assertRaises(pansuyog.TooSmall, used().mounted, self.image, read_only=True)
        self.assertEqual(descriptors(), before)

    def test_a_tree_goes_on_past_a_path_that_no_call_takes(self):
        volume = self.mounted()
        _, whole = Files.deep(self, volume)
        with self.assertWarns(pansuyog.Omitted) as caught:
            rows = volume.tree()
        self.assertEqual([str(it.message).split(":")[0] for it in caught.warnings], [whole[:1_080].decode()])
        # Seventeen of eighteen directories, and two of three files.
        self.assertEqual(len(rows), 19)
        self.assertIn(b"z", [row.name for row in rows])


# Records by records, until the volume refuses one.
APPEND = """
try:
    with pansuyog.Volume(image, library=library) as volume:
        for number in range({first}, {first} + 20):
            volume.append("/log", b"%04d" % number)
            print("saved", number, flush=True)
except pansuyog.Refused as error:
    tell(error)
"""
# Mounts a volume and reads a file, both first where no read gives anything.
READ = """
import os

def tell_broken(call, *arguments):
    os.environ["BROKEN"] = "yes"
    try:
        call(*arguments)
    except pansuyog.Refused as error:
        tell(error)
    del os.environ["BROKEN"]

tell_broken(lambda: pansuyog.Volume(image, library=library))
with pansuyog.Volume(image, library=library) as volume:
    handle = volume.open("/f")
    tell_broken(volume.pread, handle, 60_000, 5)
    print(volume.pread(handle, 60_000, 5))
"""


class Failing(WhereTheSystemFails):
    """A volume whose file fails, or whose program is stopped at each call of the system."""

    def setUp(self):
        super().setUp()
        used().make(self.image, 64)

    def test_reads_may_be_interrupted_and_short(self):
        with used().mounted(self.image) as volume:
            volume.write_file("/log", b"0000" * 20_000)
        status, lines = self.run_with(APPEND.format(first=0), "read")
        self.assertEqual((status, lines), (0, [f"saved {number}" for number in range(20)]))
        with used().mounted(self.image) as volume:
            self.assertEqual(volume.read("/log")[80_000:], b"".join(b"%04d" % number for number in range(20)))

    def test_a_read_that_fails_is_told_and_the_volume_goes_on(self):
        with used().mounted(self.image) as volume:
            volume.write_file("/f", b"x" * 70_000)
        put(f"{self.folder}/reads.c", BROKEN_READS.encode())
        status, lines = self.run_with(READ, faults=f"{self.folder}/reads.c")
        mount = f"Device True {self.image}: a read or a sync of it failed: Input/output error"
        call = f"Device True pread 0 60000 5: a read of {self.image} failed: Input/output error"
        self.assertEqual((status, lines), (0, [mount, call, "b'xxxxx'"]))

    def test_a_file_system_without_locks_is_told(self):
        put(f"{self.folder}/locks.c", NO_LOCKS.encode())
        status, lines = self.run_with(APPEND.format(first=0), faults=f"{self.folder}/locks.c")
        self.assertEqual((status, lines), (0, [f"Image False {self.image}: the system refuses to lock it"]))

    def test_a_write_or_a_sync_that_fails_halts_the_volume(self):
        # A sync fails only behind a write, so the mount comes to its end.
        told = {
            "write": "Halted False sync: it can't be written: a write of {} failed: No space left on device",
            "sync": "Halted True sync: it can't be written: a write or a sync of {} failed: Input/output error",
            "write sync": "Halted True sync: it can't be written: a write or a sync of {} failed: No space left on device",
        }
        for fails, text in told.items():
            self.assertEqual(self.run_with(APPEND.format(first=0), fails), (0, [text.format(self.image)]))
        with used().mounted(self.image) as volume:
            self.assertIn(len(volume.readdir("/")), (0, 1))

    def test_what_was_saved_is_there_behind_a_stop_at_each_call(self):
        saved, stops = 0, 0
        while stops < 60:
            status, lines = self.run_with(APPEND.format(first=saved), stop=stops)
            self.assertEqual(status, 9)
            acknowledged = int(lines[-1].split()[1]) + 1 if lines else saved
            with used().mounted(self.image) as volume:
                found = volume.read("/log") if volume.readdir("/") else b""
            self.assertIn(len(found) // 4, (acknowledged, acknowledged + 1))
            self.assertEqual(found, b"".join(b"%04d" % number for number in range(len(found) // 4)))
            saved, stops = len(found) // 4, stops + 1
        self.assertGreater(saved, 60)


class Devices(OnADevice):
    """Devices of the caller's own."""

    def test_an_empty_volume_is_made_on_any_device(self):
        device = stopping.Device(self.image, random)
        with self.mounted(device) as volume:
            volume.create("/f")
            volume.sync()
        for format in (1, 2):
            pansuyog.make_over(device, 64, format, library=used().orders)
            with self.mounted(device) as volume:
                self.assertEqual((volume.version(), volume.readdir("/")), (format, []))
        with self.assertRaisesRegex(pansuyog.TooSmall, "^the device: it is shorter than its volume, or than any volume$"):
            pansuyog.make_over(device, 72, library=used().orders)
        for segments, format in ((65, 1), (64, 4), (56, 1), (1_032, 1)):
            self.assertRaisesRegex(pansuyog.Inval, "^the device: ", pansuyog.make_over, device, segments, format, library=used().orders)

    def test_what_is_no_volume_is_refused(self):
        put(self.image, bytes(3_000_000))
        with self.assertRaisesRegex(pansuyog.NoCheckpoint, "^the device: neither of its two slots holds a checkpoint$"):
            self.mounted()
        used().make(self.image, 64, force=True)
        with open(self.image, "r+b") as file:
            file.seek(512 * 4 + 4)
            file.write(b"\0")
        self.assertRaisesRegex(pansuyog.Damaged, "^the device: stage 3 of its check fails$", self.mounted)

    def test_a_sector_that_is_not_needed_need_not_be_read(self):
        device = stopping.Device(self.image, random)
        device.unreadable = set(range(10, 4_000))
        self.mounted(device).close()
        # The root's inode.
        device.unreadable = {3}
        text = "^the device: stage 4 of its check fails, and a read of it failed: the sector can't be read$"
        self.assertRaisesRegex(pansuyog.Damaged, text, self.mounted, device)

    def test_what_was_synced_is_there_where_the_rest_is_lost(self):
        device = stopping.Device(self.image, random)
        with self.mounted(device) as volume:
            for number in range(20):
                volume.append("/log", b"%04d" % number)
            lost = volume.create("/lost")
            for number in range(10):
                volume.pwrite(lost, 65_536 * number, b"x" * 65_536)
            volume.unlink("/log")
        self.assertGreater(device.cut(stopping.OLD), 0)
        self.assertEqual(self.mounted(device).read("/log"), b"".join(b"%04d" % number for number in range(20)))

    def test_what_was_synced_is_there_behind_a_stop_at_each_order(self):
        device, acknowledged, stops = stopping.Device(self.image, random.Random(1)), [], 0
        while stops < 60:
            with self.mounted(device) as volume, contextlib.suppress(stopping.Stopped):
                device.stop_behind(stops)
                for number in range(len(acknowledged), 1_000):
                    volume.append("/log", b"%04d" % number)
                    acknowledged.append(b"%04d" % number)
            device.cut()
            with self.mounted(device) as volume:
                found = volume.read("/log") if acknowledged else b""
            self.assertEqual(found[: 4 * len(acknowledged)], b"".join(acknowledged))
            self.assertIn(len(found) - 4 * len(acknowledged), (0, 4))
            acknowledged += [found[4 * len(acknowledged) :]] if len(found) > 4 * len(acknowledged) else []
            stops += 1
        self.assertGreater(len(acknowledged), 60)

    def test_a_tree_has_whole_files_behind_a_stop_at_each_order(self):
        with tempfile.TemporaryDirectory() as folder:
            for number in range(30):
                put(f"{folder}/{number:02}", bytes([number + 1]) * (40 * number + 1))
            for each in (64 << 20, 5_000):
                stops, most = 0, 0
                while self.is_stopped_behind(stops, folder, each):
                    with self.mounted() as volume:
                        names = [name for name in self.names(volume) if name != b".lfs-put"]
                        self.assertEqual(names, [b"%02d" % number for number in range(len(names))])
                        for number, name in enumerate(names):
                            self.assertEqual(volume.read(name), bytes([number + 1]) * (40 * number + 1))
                        most = max(most, len(names))
                    stops += 1
                self.assertGreater(stops, 10)
                with self.mounted() as volume:
                    self.assertEqual(len(volume.readdir("/")), 30)

    def is_stopped_behind(self, orders, folder, each):
        """Whether the power goes, behind so many orders, while a folder is put into a new volume."""
        used().make(self.image, 64, force=True)
        device = stopping.Device(self.image, random.Random(orders))
        try:
            with self.mounted(device) as volume:
                device.stop_behind(orders)
                volume.write_tree(folder, sync_each=each)
            return False
        except stopping.Stopped:
            return True
        finally:
            device.cut(stopping.NEW if orders % 2 else stopping.OLD)

    def test_a_tree_of_many_files_has_few_syncs(self):
        with tempfile.TemporaryDirectory() as folder:
            for number in range(200):
                put(f"{folder}/{number}", b"x" * 100)
            device = stopping.Device(self.image, random)
            with self.mounted(device) as volume:
                before = device.syncs
                volume.write_tree(folder)
                self.assertLessEqual(device.syncs - before, 20)

    def test_a_failure_tells_the_cause(self):
        full, broken = (OSError(it, os.strerror(it)) for it in (errno.ENOSPC, errno.EIO))
        device = stopping.Device(self.image, random)
        for name, error in (("write", full), ("sync", full), ("write", broken), ("sync", broken)):
            with self.mounted(device) as volume:
                handle = volume.create("/f")
                with mock.patch.object(device, name, side_effect=error), self.assertRaises(pansuyog.Halted) as caught:
                    volume.append("/f", b"x")
                cause = f"it can't be written: a {name} of the device failed: {error.strerror}"
                self.assertEqual(str(caught.exception), f"sync: {cause}")
                # A write that finds no room leaves nothing in doubt.
                self.assertIs(caught.exception.needs_restart, (name, error) != ("write", full))
                with self.assertRaises(pansuyog.Halted) as caught:
                    volume.close_handle(handle)
                self.assertEqual(str(caught.exception), f"close {handle}: {cause}")
        with mock.patch.object(device, "sync", side_effect=broken), self.assertRaises(pansuyog.Device) as caught:
            self.mounted(device)
        self.assertEqual(str(caught.exception), "the device: a sync of it failed: Input/output error")
        self.assertTrue(caught.exception.needs_restart)
        with mock.patch.object(device, "read", side_effect=broken), self.assertRaises(pansuyog.NoCheckpoint) as caught:
            self.mounted(device)
        self.assertRegex(str(caught.exception), "holds a checkpoint, and a read of it failed: Input/output error$")

    def test_what_is_only_read_gets_no_write(self):
        device = stopping.Device(self.image, random)
        with self.mounted() as volume:
            volume.mkdir("/d")
            volume.write_file("/d/f", b"x")
        with self.mounted(device, read_only=True) as volume:
            for change in [*changes_of(volume), *more_changes_of(volume)]:
                self.assertRaises(pansuyog.ReadOnly, change)
            volume.sync()
            volume.fsync(0)
            self.assertRaises(pansuyog.BadHandle, volume.fsync, 63)
            self.assertIs(volume.is_cleaning_due(), False)
        self.assertEqual(device.writes, 0)

    def test_a_call_within_another_is_an_error(self):
        device = stopping.Device(self.image, random)
        volume = self.mounted(device)
        volume.create("/f")
        with mock.patch.object(device, "sync", lambda: volume.readdir("/")):
            self.assertRaises(RuntimeError, volume.sync)
        self.assertEqual([it.name for it in volume.readdir("/")], [b"f"])
        volume.sync()
        volume.kill()
        self.assertEqual([it.name for it in self.mounted().readdir("/")], [b"f"])

    def test_each_call_of_the_device_fails_in_turn(self):
        with self.mounted() as volume:
            volume.append("/log", b"one\n")
        failures, size = 0, 4
        while self.fails_behind(failures):
            with self.mounted() as volume:
                self.assertIn(volume.stat("/log").size, (size, size + 4))
                size = volume.stat("/log").size
            failures += 1
        # Two syncs of the mount, and at least a write and a sync of the blocks and of the checkpoint.
        self.assertGreaterEqual(failures, 6)
        with self.mounted() as volume:
            self.assertEqual(volume.stat("/log").size, size + 4)

    def fails_behind(self, good_calls):
        """Whether an append fails where the device fails behind so many writes and syncs. Then no call is taken any more."""
        left = [good_calls]

        def counted(call):
            def made(*arguments):
                left[0] -= 1
                if left[0] < 0:
                    raise OSError("the device failed")
                return call(*arguments)

            return made

        device = stopping.Device(self.image, random)
        with mock.patch.object(device, "write", counted(device.write)), mock.patch.object(device, "sync", counted(device.sync)):
            try:
                volume = self.mounted(device)
            except pansuyog.Device:
                return True
            with volume:
                try:
                    volume.append("/log", b"two\n")
                except pansuyog.Halted:
                    self.assertRaises(pansuyog.Halted, volume.stat, "/log")
                    self.assertRaises(pansuyog.Halted, volume.sync)
                    return True
        return False


class Installed(OfTheLibrary):
    def libraries(self):
        return [used().path, used().orders]

    def test_libraries_beside_the_module_are_found(self):
        with tempfile.TemporaryDirectory() as folder:
            for path in (f"{HERE}/pansuyog.py", f"{HERE}/stopping.py", *self.libraries()):
                shutil.copy(path, folder)
            code = "import pansuyog; pansuyog.make('disk.img', 64); pansuyog.Volume('disk.img').sync()"
            code += "; import stopping; device = stopping.Device('disk.img', None); pansuyog.make_over(device, 64); pansuyog.Volume.over(device).sync()"
            subprocess.run([sys.executable, "-c", code], cwd=folder, check=True)
            self.assertEqual(os.path.getsize(f"{folder}/disk.img"), 512 * (2 + 64 * 64))

    def test_the_page_of_the_library_shows_what_runs(self):
        shown = re.findall(r"^```python\n(.*?)^```", text_of(f"{HERE}/../../docs/LIBRARY.md"), re.M | re.S)
        wanted = [b"a record\n", b"[['2026-12-01', '4.2']]\n"]
        self.assertEqual(len(shown), len(wanted))
        env = {**os.environ, "PYTHONPATH": HERE, "LD_LIBRARY_PATH": os.path.dirname(used().path)}
        with tempfile.TemporaryDirectory() as folder:
            used().make(f"{folder}/disk.img", 64)
            for code, told in zip(shown, wanted):
                ran = subprocess.run([sys.executable, "-B", "-c", code], cwd=folder, env=env, stdout=subprocess.PIPE, check=True)
                self.assertEqual(ran.stdout, told)

    def test_a_wheel_has_the_libraries(self):
        with tempfile.TemporaryDirectory() as folder, mock.patch("building.LIBRARIES", self.libraries()):
            name = building.build_wheel(folder)
            self.assertIn("-linux_", name)
            shutil.unpack_archive(f"{folder}/{name}", folder, "zip")
            for it in ("pansuyog.py", "libpansuyog_file.so.0", "libpansuyog.so.0"):
                self.assertTrue(os.path.exists(f"{folder}/{it}"))


class Recorder(OfTheLibrary, test_pansuyog.Recorder):
    """An hour's recorder in compressed time: a record for each second, saved by itself, and about once a minute the recorder is killed."""

    def test_every_acknowledged_record_is_there_after_each_kill(self):
        with tempfile.TemporaryDirectory() as folder:
            image = os.path.join(folder, "disk.img")
            used().make(image, 64)
            acknowledged, kills = 0, 0
            while acknowledged < RECORDS:
                acknowledged = self.killed(image, acknowledged, 1, random.randint(1, 90))
                kills += 1
            print(f"{kills} kills, {acknowledged} records acknowledged, all there")


if __name__ == "__main__":
    test_pansuyog.used = Library(os.path.abspath(sys.argv.pop(1)))
    unittest.main()
