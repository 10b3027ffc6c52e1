"""Tests of the recorder: python3 test_record.py PROGRAM [CLASS ..]. PROGRAM is what clients/record/build makes. LFS of the environment
names the program lfs, which looks at a volume beside a recorder. The library beside the archive reads it behind one.

What is expected stands in README.md, in docs/RECORDER.md and in docs/LIBRARY.md."""
import contextlib
import datetime
import fcntl
import json
import os
import pty
import random
import re
import resource
import shutil
import signal
import subprocess
import sys
import tempfile
import threading
import time
import unittest

HERE = os.path.dirname(os.path.realpath(__file__))
sys.path.insert(0, f"{HERE}/../python")
import pansuyog  # noqa: E402, which stands there

LIBRARY = f"{HERE}/../c/out/libpansuyog_file.so.0"
FAULTS = f"{HERE}/../c/tests/faults.c"
LONGEST = 65_535
# The bytes of an image beside its segments, in format 3.
BEFORE_SEGMENTS = 131_072
# Each sync takes so long that the input comes quicker.
SLOW_SYNCS = """
#define _POSIX_C_SOURCE 200809L
#include <time.h>
int fsync(int fd) {
    const struct timespec pause = {0, 50000000};
    (void)fd;
    return nanosleep(&pause, 0);
}
"""
# No read of a file at a place gives anything.
BROKEN_READS = """
#include <errno.h>
#include <sys/types.h>
static ssize_t fails(void) { errno = EIO; return -1; }
ssize_t pread(int fd, void *bytes, size_t count, off_t at) { (void)fd; (void)bytes; (void)count; (void)at; return fails(); }
ssize_t pread64(int fd, void *bytes, size_t count, off_t at) { (void)fd; (void)bytes; (void)count; (void)at; return fails(); }
"""
PROGRAM, LFS = None, os.environ.get("LFS")


def today(zone_hours=None):
    """The local date, or that of a place so many hours before Greenwich."""
    zone = None if zone_hours is None else datetime.timezone(datetime.timedelta(hours=zone_hours))
    return datetime.datetime.now(zone).date()


def name_of(number, day=None):
    return f"{number:08d}-{day or today()}"


class OfTheRecorder(unittest.TestCase):
    def setUp(self):
        folder = tempfile.TemporaryDirectory()
        self.addCleanup(folder.cleanup)
        self.folder, self.image = folder.name, f"{folder.name}/disk.img"

    def started(self, *words, size="2M", env=None, **how):
        """A recorder that runs."""
        how = {"stdin": subprocess.PIPE, "stdout": subprocess.PIPE, "stderr": subprocess.PIPE, **how}
        size = [] if size is None else ["--size", size]
        child = subprocess.Popen([PROGRAM, self.image, *size, *words], env={**os.environ, **(env or {})}, **how)
        self.addCleanup(self.ended, child)
        # A test that waits for what never comes fails.
        watch = threading.Timer(45, child.kill)
        watch.start()
        self.addCleanup(watch.cancel)
        return child

    @staticmethod
    def ended(child):
        if child.poll() is None:
            child.kill()
            child.wait()
        for stream in (child.stdin, child.stdout, child.stderr):
            if stream:
                with contextlib.suppress(OSError):
                    stream.close()

    def run_on(self, data, *words, **how):
        """What comes of an input: the status, and what standard output and error have."""
        child = self.started(*words, **how)
        output, errors = child.communicate(data, timeout=60)
        return child.returncode, output.decode(), errors.decode()

    def saves(self, data, count, *words, **how):
        """All of an input is saved, and nothing else is said."""
        self.assertEqual(self.run_on(data, *words, **how), (0, "", f"saved {count}\n"))

    def files(self, image=None):
        """The names and bytes of a volume's files, in their order."""
        with pansuyog.Volume(image or self.image, read_only=True, library=LIBRARY) as volume:
            names = [it.name.decode() for it in volume.readdir("/")]
            return {name: volume.read(f"/{name}") for name in names}

    def content(self):
        return b"".join(self.files().values())

    def looked(self):
        """The bytes of all files, by the program beside a recorder."""
        names = subprocess.run([LFS, "ls", self.image], stdout=subprocess.PIPE, check=True).stdout.decode().split()
        ran = subprocess.run([LFS, "cat", self.image, *(f"/{it}" for it in names)], stdout=subprocess.PIPE, check=True)
        return ran.stdout

    def preloaded(self, path):
        if shutil.which("gcc") is None:
            self.skipTest("for want of gcc")
        subprocess.run(["gcc", "-O2", "-shared", "-fPIC", path, "-o", f"{self.folder}/faults.so", "-ldl"], check=True)
        return {"LD_PRELOAD": f"{self.folder}/faults.so"}

    @staticmethod
    def waits_for(is_so, seconds=20):
        end = time.monotonic() + seconds
        while not is_so():
            if time.monotonic() > end:
                raise AssertionError("it took too long")
            time.sleep(0.01)


class Acknowledged:
    """A recorder's standard output, as a thread reads it: how many lines are saved."""

    def __init__(self, child):
        self.saved, self.child = 0, child
        self.reader = threading.Thread(target=self._read, daemon=True)
        self.reader.start()

    def _read(self):
        for line in self.child.stdout:
            # A kill may cut the last one.
            if line.endswith(b"\n"):
                self.saved = int(line)


class Checked(OfTheRecorder):
    """What the program does with an input. These tests run with gcc's checks too."""

    def test_the_last_line_needs_no_newline(self):
        self.saves(b"one\n\ntwo\nthree", 4)
        self.assertEqual(self.files(), {name_of(1): b"one\n\ntwo\nthree\n"})

    def test_any_bytes_are_a_line(self):
        data = bytes(it for it in range(256) if it != 10) + b"\n"
        self.saves(data, 1)
        self.assertEqual(self.content(), data)

    def test_no_line_is_saved_of_no_input(self):
        self.saves(b"", 0)
        self.assertEqual(self.files(), {})

    def test_a_file_begins_behind_so_many_bytes(self):
        lines = [b"%09d\n" % it for it in range(25)]
        self.saves(b"".join(lines), 25, "--file", "100")
        wanted = {name_of(1): lines[:10], name_of(2): lines[10:20], name_of(3): lines[20:]}
        self.assertEqual(self.files(), {name: b"".join(of) for name, of in wanted.items()})

    def test_few_files_are_kept(self):
        lines = [b"%09d\n" % it for it in range(50)]
        self.saves(b"".join(lines), 50, "--file", "100", "--keep", "2")
        self.assertEqual(self.files(), {name_of(4): b"".join(lines[30:40]), name_of(5): b"".join(lines[40:])})

    def test_a_line_that_is_too_long_is_cut(self):
        longest, longer = b"a" * LONGEST, b"b" * (LONGEST + 4_465)
        status, output, errors = self.run_on(longest + b"\n" + longer + b"\nnext\n" + longer)
        self.assertEqual((status, output), (0, ""))
        self.assertEqual(self.content(), longest + b"\n" + longer[:LONGEST] + b"\nnext\n" + longer[:LONGEST] + b"\n")
        told, saved = errors.splitlines()
        self.assertRegex(told, rf"^{self.image}: .*{LONGEST} bytes.* 2 were cut, by {2 * 4_465} bytes")
        self.assertEqual(saved, "saved 4")

    def test_a_line_cut_off_by_another_program_isnt_glued(self):
        self.saves(b"whole\n", 1)
        with pansuyog.Volume(self.image, library=LIBRARY) as volume:
            volume.append(f"/{name_of(1)}", b"12,par")
        self.saves(b"13,whole\n", 1)
        self.assertEqual(self.files(), {name_of(1): b"whole\n12,par", name_of(2): b"13,whole\n"})

    def test_a_second_start_goes_on_in_the_newest_file(self):
        self.saves(b"one\n", 1)
        self.saves(b"two", 1)
        self.assertEqual(self.files(), {name_of(1): b"one\ntwo\n"})

    def test_a_file_is_of_the_local_date(self):
        # These two places never have one date. POSIX counts hours behind Greenwich.
        early, late = today(-12), today(14)
        self.saves(b"one\n", 1, env={"TZ": "AAA12"})
        self.saves(b"two\n", 1, env={"TZ": "BBB-14"})
        self.assertEqual(self.files(), {name_of(1, early): b"one\n", name_of(2, late): b"two\n"})

    def test_the_oldest_file_goes_where_the_volume_is_full(self):
        # A file waits to be read, so that nothing is lost. One of 131,072 bytes and a line counts 285 blocks of the 2,280 that an empty
        # volume of 64 segments takes: eight fit, or seven beside one that has just begun.
        lines = [b"%07d of a file\n" % it for it in range(150_000)]
        with tempfile.TemporaryFile() as file:
            file.write(b"".join(lines))
            file.seek(0)
            self.saves(None, len(lines), stdin=file)
        files = self.files()
        held = b"".join(files.values())
        self.assertTrue(b"".join(lines).endswith(held))
        self.assertGreaterEqual(len(held), 7 * 131_072)
        numbers = [int(name[:8]) for name in files]
        self.assertEqual(numbers, list(range(numbers[0], numbers[0] + len(numbers))))
        self.assertGreater(numbers[0], 1)
        self.assertTrue(held.startswith(b"%07d of" % (len(lines) - len(held) // 18)))

    def test_a_file_is_read_as_there_is_room(self):
        # Lines are saved before their time where the buffer is half full. The longest ones fill it but for a byte.
        for line in (*[b"a line\n"] * 4, b"x" * LONGEST + b"\n"):
            with self.subTest(size=len(line)), tempfile.TemporaryFile() as file:
                count = 800_000 // len(line)
                file.write(line * count)
                file.seek(0)
                begun = time.monotonic()
                self.saves(None, count, "--buffer", "128K", "--lines", "1000000", "--seconds", "1000", stdin=file)
                # Neither thread waits for the other until it looks up.
                self.assertLess(time.monotonic() - begun, 8)
                self.assertTrue(self.content().endswith(line * count))

    def test_each_signal_saves_what_waits(self):
        for number, wanted in ((signal.SIGTERM, 0), (signal.SIGINT, 130), (signal.SIGHUP, 129)):
            with self.subTest(signal=number):
                before = self.content() if os.path.exists(self.image) else b""
                child = self.started("--lines", "1000", "--seconds", "1000")
                child.stdin.write(b"one\ntwo\nthr")
                child.stdin.flush()
                self.waits_for(lambda: os.path.exists(self.image))
                time.sleep(0.3)
                child.send_signal(number)
                errors = child.stderr.read()
                self.assertEqual((child.wait(), errors), (wanted, b"saved 3\n"))
                self.assertEqual(self.content(), before + b"one\ntwo\nthr\n")

    def test_a_signal_while_the_image_is_made_saves_what_came_before(self):
        child = self.started(size="32M")
        child.stdin.write(b"one\n")
        child.stdin.flush()
        self.waits_for(lambda: os.path.exists(f"{self.image}.lfs-make"))
        child.send_signal(signal.SIGTERM)
        self.assertEqual((child.wait(), child.stderr.read()), (0, b"saved 1\n"))
        self.assertEqual(self.content(), b"one\n")

    def loses(self, lines, env):
        """Some of these lines are lost, all of which have one length and differ."""
        size = len(lines[0])
        status, _, errors = self.run_on(b"".join(lines), "--buffer", "128K", env=env)
        lost = sum(map(int, re.findall(rf"^{self.image}: .*: (\d+) bytes of the input are lost$", errors, re.M)))
        held = self.content().splitlines(True)
        self.assertEqual(status, 0)
        self.assertGreater(lost, 0)
        self.assertEqual(lost + size * len(held), size * len(lines))
        self.assertEqual(errors.splitlines()[-1], f"saved {len(held)}")
        # Each line that is there is whole, and they are in order.
        place = {line: number for number, line in enumerate(lines)}
        self.assertEqual([it[:20] for it in held if it not in place], [])
        places = [place[it] for it in held]
        self.assertEqual(places, sorted(set(places)))
        os.unlink(self.image)

    def test_a_full_buffer_tells_its_loss(self):
        path = f"{self.folder}/slow.c"
        with open(path, "w", encoding="ascii") as file:
            file.write(SLOW_SYNCS)
        env = self.preloaded(path)
        self.loses([b"%09d\n" % it for it in range(100_000)], env)
        # A long line comes in pieces, of which the first ones may find room where the others don't.
        self.loses([b"%030000d\n" % it for it in range(100)], env)

    def test_a_fifo_that_comes_back(self):
        fifo = f"{self.folder}/fifo"
        os.mkfifo(fifo)
        child = self.started("--input", fifo, "--lines", "1", "--acknowledge", stdin=subprocess.DEVNULL)
        for count, line in enumerate((b"one\n", b"two\n"), 1):
            with open(fifo, "wb") as file:
                file.write(line)
            self.assertEqual(child.stdout.readline(), b"%d\n" % count)
        child.send_signal(signal.SIGTERM)
        self.assertEqual((child.wait(), child.stderr.read()), (0, b"saved 2\n"))
        self.assertEqual(self.content(), b"one\ntwo\n")

    def test_a_terminal_that_goes_away(self):
        master, slave = pty.openpty()
        path = os.ttyname(slave)
        child = self.started("--serial", f"{path}:9600", "--lines", "1", "--acknowledge", stdin=subprocess.DEVNULL)
        self.waits_for(lambda: os.path.exists(self.image))
        os.close(slave)
        time.sleep(0.3)
        # A terminal that isn't raw would take the byte 4 for the end, and 13 for a newline.
        os.write(master, b"o\4e\r\n")
        self.assertEqual(child.stdout.readline(), b"1\n")
        os.write(master, b"tw")
        time.sleep(0.3)
        os.close(master)
        told, saved = child.stderr.read().decode().splitlines()
        self.assertEqual((child.wait(), saved), (1, "saved 2"))
        self.assertTrue(told.startswith(f"{path}: "))
        self.assertEqual(self.content(), b"o\4e\r\ntw\n")


class InTime(OfTheRecorder):
    """How many lines are saved together, and how long one waits."""

    def test_lines_are_saved_together(self):
        child = self.started("--lines", "5", "--seconds", "1000", "--acknowledge")
        acknowledged = Acknowledged(child)
        child.stdin.write(b"a line\n" * 4)
        child.stdin.flush()
        time.sleep(0.5)
        self.assertEqual(acknowledged.saved, 0)
        child.stdin.write(b"a line\n")
        child.stdin.flush()
        self.waits_for(lambda: acknowledged.saved == 5, 2)

    def test_a_line_waits_for_so_long(self):
        self.saves(b"", 0)
        child = self.started("--lines", "1000", "--seconds", "1", "--acknowledge")
        acknowledged, late, begun = Acknowledged(child), [], time.monotonic()
        for count in range(16):
            child.stdin.write(b"%d\n" % count)
            child.stdin.flush()
            time.sleep(0.2)
            # Lines that came two seconds ago. The first one waited for the mount.
            old = int((time.monotonic() - begun - 2) / 0.2)
            if old > 0 and acknowledged.saved < old:
                late.append((count, acknowledged.saved))
            if LFS and old > 0 and len(self.looked().splitlines()) < old:
                late.append((count, "by lfs"))
        self.assertEqual(late, [])

    def test_a_line_that_waits_is_saved_once_the_oldest_has_waited(self):
        child = self.started("--lines", "1000", "--seconds", "1", "--acknowledge")
        child.stdin.write(b"one\n")
        child.stdin.flush()
        self.waits_for(lambda: os.path.exists(self.image))
        begun = time.monotonic()
        self.assertEqual(child.stdout.readline(), b"1\n")
        self.assertGreater(time.monotonic() - begun, 0.8)


class Stops(OfTheRecorder):
    """Kills, as the recorder is under load."""

    def record_and_kill(self, number, lasts):
        """Lines from a number on until a kill: how many were written, and how many of them acknowledged."""
        child = self.started("--acknowledge", "--file", "32K")
        acknowledged, sent, begun = Acknowledged(child), 0, time.monotonic()
        with contextlib.suppress(BrokenPipeError):
            while time.monotonic() - begun < lasts:
                # So few lines are under way that the buffer has room for them.
                if sent - acknowledged.saved > 2_000:
                    time.sleep(0.001)
                    continue
                child.stdin.write(b"".join(b"%09d\n" % it for it in range(number + sent, number + sent + 100)))
                child.stdin.flush()
                sent += 100
        child.kill()
        child.wait()
        acknowledged.reader.join()
        return sent, acknowledged.saved

    def test_each_line_that_was_acknowledged_is_there(self):
        chance, number, least = random.Random(1), 0, 0
        for _ in range(6):
            sent, count = self.record_and_kill(number, 0.1 + 0.5 * chance.random())
            found = self.content() if os.path.exists(self.image) else b""
            last = int(found[-10:]) if found else number - 1
            self.assertTrue(number + count <= last + 1 <= number + sent)
            # Whole lines in order, each once. Where the volume is full the oldest files have gone: one of 32,770 bytes counts 72 blocks of
            # the 2,280 that an empty volume takes, so that 31 fit, or 30 beside one that has just begun.
            first = last + 1 - len(found) // 10
            self.assertEqual(found, b"".join(b"%09d\n" % it for it in range(first, last + 1)))
            self.assertTrue(first == 0 or len(found) >= 30 * 32_768)
            # An instrument that keeps its lines until they are acknowledged goes on with the first that isn't there.
            number, least = last + 1, least + count
        self.assertGreater(least, 0)

    def test_a_stop_as_the_image_is_made_leaves_all_of_it_or_nothing(self):
        env, status, stop = self.preloaded(FAULTS), 9, 0
        while status == 9:
            status, _, _ = self.run_on(b"one\n", env={**env, "STOP": str(stop)})
            if os.path.exists(self.image):
                self.assertIn(self.content(), (b"", b"one\n"))
                self.saves(b"two\n", 1)
                self.assertIn(self.content(), (b"two\n", b"one\ntwo\n"))
                os.unlink(self.image)
            # Most calls reserve room, and one is like the other.
            stop += 1 if stop < 8 or stop > 60 else 13
        self.assertEqual(status, 0)
        self.assertGreater(stop, 70)


class IdleMoments(OfTheRecorder):
    def is_cleaning_due(self):
        with pansuyog.Volume(self.image, read_only=True, library=LIBRARY) as volume:
            return volume.is_cleaning_due()

    def overwrite(self):
        """Writes over a large file here and there, until fewer than a quarter of the segments are clean."""
        chance = random.Random(1)
        with pansuyog.Volume(self.image, library=LIBRARY) as volume:
            handle = volume.create("/of another")
            for place in range(64):
                volume.pwrite(handle, 65_536 * place, bytes([1]) * 65_536)
            while not volume.is_cleaning_due():
                for _ in range(8):
                    volume.pwrite(handle, 512 * chance.randrange(8_192), bytes([2]) * 512)
                volume.sync()

    def test_it_cleans_while_no_input_waits(self):
        # Of 256 segments a change leaves more than three sixteenths alone, so that a line cleans none.
        self.saves(b"", 0, size="8M")
        self.overwrite()
        self.assertTrue(self.is_cleaning_due())
        child = self.started("--acknowledge", "--lines", "1")
        child.stdin.write(b"one\n")
        child.stdin.flush()
        self.assertEqual(child.stdout.readline(), b"1\n")
        time.sleep(1)
        child.kill()
        child.wait()
        self.assertFalse(self.is_cleaning_due())


class Copies(OfTheRecorder):
    """Files that are finished are copied to a folder."""

    def setUp(self):
        super().setUp()
        self.copies = f"{self.folder}/copies"
        os.mkdir(self.copies)

    def copied(self):
        found = {}
        # One that isn't whole has another name, and may get its own meanwhile.
        for name in (it for it in os.listdir(self.copies) if not it.endswith(".part")):
            with open(f"{self.copies}/{name}", "rb") as file:
                found[name] = file.read()
        return found

    def test_all_but_the_newest_file_are_copied(self):
        lines = [b"%09d\n" % it for it in range(25)]
        self.saves(b"".join(lines), 25, "--file", "100", "--copy", self.copies)
        self.assertEqual(self.copied(), {name_of(1): b"".join(lines[:10]), name_of(2): b"".join(lines[10:20])})
        # The next start copies what was missed, and the file that it finishes.
        os.unlink(f"{self.copies}/{name_of(1)}")
        self.saves(b"".join(lines), 25, "--file", "100", "--copy", self.copies)
        files = self.files()
        del files[name_of(5)]
        self.assertEqual((self.copied(), len(files)), (files, 4))

    def test_a_file_is_copied_once_the_next_one_has_begun(self):
        child = self.started("--lines", "1", "--file", "10", "--copy", self.copies)
        for _ in range(2):
            child.stdin.write(b"a line 90\n")
            child.stdin.flush()
        self.waits_for(lambda: self.copied() == {name_of(1): b"a line 90\n"}, 5)
        # Of a large file, too.
        child.stdin.write(b"x" * 60_000 + b"\nnext\n")
        child.stdin.flush()
        self.waits_for(lambda: self.copied().get(name_of(3)) == b"x" * 60_000 + b"\n", 5)

    def test_a_copy_of_another_volume_stays(self):
        with open(f"{self.copies}/{name_of(1)}", "wb") as file:
            file.write(b"another 9\n")
        for _ in range(2):
            self.saves(b"a line 90\n" * 2, 2, "--file", "10", "--copy", self.copies)
        wanted = {name_of(1): b"another 9\n", f"{name_of(1)}.1": b"a line 90\n", name_of(2): b"a line 90\n", name_of(3): b"a line 90\n"}
        self.assertEqual(self.copied(), wanted)

    def test_a_folder_that_isnt_there_stops_nothing(self):
        os.rmdir(self.copies)
        status, _, errors = self.run_on(b"a line 90\n" * 3, "--file", "10", "--copy", self.copies)
        self.assertEqual((status, errors.splitlines()[-1]), (0, "saved 3"))
        self.assertIn(f"{self.copies}/{name_of(1)}", errors.splitlines()[0])
        self.assertIn("No such file or directory", errors.splitlines()[0])
        self.assertEqual(self.content(), b"a line 90\n" * 3)


class Status(OfTheRecorder):
    def test_it_is_written_at_the_start_and_at_the_end(self):
        path = f"{self.folder}/status"
        child = self.started("--status", path)
        self.waits_for(lambda: os.path.exists(path))
        before = time.time()
        with open(path, encoding="ascii") as file:
            first = json.loads(file.read())
        # An empty volume of 64 segments has a need of 727, and a limit of 3,008.
        self.assertEqual([first[it] for it in ("saved", "lost_bytes", "cut_lines", "need", "limit")], [0, 0, 0, 727, 3_008])
        self.assertLess(abs(first["time"] - before), 5)
        child.communicate(b"a line\n" * 100 + b"x" * 70_000)
        with open(path, encoding="ascii") as file:
            text = file.read()
        last = json.loads(text)
        self.assertEqual(([last[it] for it in ("saved", "lost_bytes", "cut_lines")], text.count("\n")), ([101, 0, 1], 1))
        self.assertGreater(last["need"], 727)
        self.assertFalse(os.path.exists(f"{path}.part"))

    def test_it_is_written_each_ten_seconds(self):
        path = f"{self.folder}/status"
        child = self.started("--status", path, "--lines", "1", "--acknowledge")
        child.stdin.write(b"one\n")
        child.stdin.flush()
        self.assertEqual(child.stdout.readline(), b"1\n")

        def saved():
            with open(path, encoding="ascii") as file:
                return json.loads(file.read())["saved"]

        self.waits_for(lambda: saved() == 1, 12)

    def test_one_that_cant_be_written_stops_nothing(self):
        status, _, errors = self.run_on(b"one\n", "--status", f"{self.folder}/none/status")
        told, saved = errors.splitlines()
        self.assertEqual((status, saved), (0, "saved 1"))
        self.assertTrue(told.startswith(f"{self.folder}/none/status: ") and told.endswith("No such file or directory"), told)


class Images(OfTheRecorder):
    """What is made, moved aside, and refused."""

    def test_an_image_is_made(self):
        for size, segments in ((None, 1024), ("2M", 64), ("2100K", 72), ("1", 64), ("4194304", 128)):
            with self.subTest(size=size):
                self.saves(b"one\n", 1, size=size)
                found = os.stat(self.image)
                self.assertEqual(found.st_size, BEFORE_SEGMENTS + 32_768 * segments)
                self.assertGreaterEqual(512 * found.st_blocks, found.st_size)
                with pansuyog.Volume(self.image, read_only=True, library=LIBRARY) as volume:
                    self.assertEqual(volume.shape(), pansuyog.Shape(segments, 3, 8))
                self.assertEqual(os.listdir(self.folder), ["disk.img"])
                os.unlink(self.image)

    def test_no_image_is_made_in_the_place_of_a_device(self):
        missing = "/dev/no-card-is-there"
        ran = subprocess.run([PROGRAM, missing], input=b"one\n", capture_output=True, timeout=30, check=False)
        self.assertEqual((ran.returncode, ran.stdout), (1, b""))
        self.assertIn(missing.encode(), ran.stderr)
        self.assertFalse(os.path.exists(missing))

    def test_a_sparse_image_is_made(self):
        self.saves(b"one\n", 1, "--sparse", size="8M")
        found = os.stat(self.image)
        self.assertEqual(found.st_size, BEFORE_SEGMENTS + 8 * 1024 * 1024)
        self.assertLess(512 * found.st_blocks, found.st_size // 4)

    def test_an_image_that_is_there_keeps_its_size_and_format(self):
        pansuyog.make(self.image, 64, format=1, library=LIBRARY)
        self.saves(b"one\n", 1, size="8M")
        self.assertEqual(os.path.getsize(self.image), 512 * (2 + 64 * 64))
        self.assertEqual(self.content(), b"one\n")

    def damages(self):
        """Each way to damage an image of 64 segments, by the refusal of its mount."""
        return {
            "it holds no volume": lambda file: [os.pwrite(file, b"\1", 512 * sector + 400) for sector in (0, 128)],
            "it is shorter than its volume, or than any volume": lambda file: os.ftruncate(file, 2_000_000),
            "the volume is damaged": lambda file: os.pwrite(file, bytes(64 * 32_768), 512 * 256),
        }

    def damaged(self, how):
        """The bytes of a damaged image."""
        self.saves(b"old\n", 1)
        file = os.open(self.image, os.O_RDWR)
        how(file)
        os.close(file)
        with open(self.image, "rb") as image:
            return image.read()

    def test_a_damaged_image_is_moved_aside(self):
        for number, (why, how) in enumerate(self.damages().items()):
            with self.subTest(why=why):
                before = self.damaged(how)
                status, _, errors = self.run_on(b"new\n")
                told, saved = errors.splitlines()
                self.assertEqual((status, saved), (0, "saved 1"))
                self.assertTrue(told.startswith(f"{self.image}: {why}") and f"{self.image}.{number}" in told, told)
                with open(f"{self.image}.{number}", "rb") as file:
                    self.assertEqual(file.read(), before)
                self.assertEqual(self.content(), b"new\n")
                os.unlink(self.image)

    def test_a_fourth_damaged_image_stays(self):
        for number in range(3):
            with open(f"{self.image}.{number}", "xb"):
                pass
        before = self.damaged(self.damages()["the volume is damaged"])
        status, _, errors = self.run_on(b"new\n")
        told, saved = errors.splitlines()
        self.assertEqual((status, saved), (1, "saved 0"))
        self.assertTrue(told.startswith(f"{self.image}: the volume is damaged"), told)
        with open(self.image, "rb") as file:
            self.assertEqual(file.read(), before)
        self.assertEqual([os.path.getsize(f"{self.image}.{it}") for it in range(3)], [0, 0, 0])

    def test_a_file_that_is_no_volume_stays(self):
        for held in (b"", b"a text\n", bytes(3_000_000), os.urandom(3_000_000)):
            with self.subTest(size=len(held)):
                with open(self.image, "wb") as file:
                    file.write(held)
                status, _, errors = self.run_on(b"new\n")
                told, saved = errors.splitlines()
                self.assertEqual((status, saved), (1, "saved 0"))
                self.assertTrue(told.startswith(f"{self.image}: "), told)
                with open(self.image, "rb") as file:
                    self.assertEqual(file.read(), held)
                self.assertEqual(os.listdir(self.folder), ["disk.img"])

    def test_what_is_no_file_is_refused(self):
        os.mkdir(self.image)
        status, _, errors = self.run_on(b"new\n")
        self.assertEqual((status, len(errors.splitlines())), (1, 2))
        self.assertTrue(errors.startswith(f"{self.image}: "), errors)
        os.rmdir(self.image)
        self.image = f"{self.folder}/none/disk.img"
        status, _, errors = self.run_on(b"new\n")
        self.assertEqual((status, len(errors.splitlines())), (1, 2))
        self.assertTrue(errors.startswith(f"{self.image}: "), errors)

    def test_a_second_recorder_is_refused(self):
        first = self.started("--lines", "1", "--acknowledge")
        first.stdin.write(b"one\n")
        first.stdin.flush()
        first.stdout.readline()
        status, _, errors = self.run_on(b"two\n")
        self.assertEqual((status, errors), (1, f"{self.image}: it is in use by another program\nsaved 0\n"))
        self.assertEqual(first.communicate(b"three\n"), (b"2\n", b"saved 2\n"))
        self.assertEqual(self.content(), b"one\nthree\n")


class Refusals(OfTheRecorder):
    """What is told, and with which status, where calls of the system fail."""

    def told(self, wanted_status, reason, *words, data=b"line\n" * 10, **how):
        status, _, errors = self.run_on(data, *words, **how)
        told, saved = errors.splitlines()
        self.assertEqual((status, saved), (wanted_status, "saved 0"))
        self.assertTrue(told.startswith(f"{self.image}: ") and reason in told, told)

    def test_a_sync_that_fails(self):
        self.saves(b"", 0)
        self.told(2, "Input/output error", env={**self.preloaded(FAULTS), "FAULTS": "sync"})

    def test_a_write_that_finds_no_room(self):
        self.saves(b"", 0)
        self.told(1, "No space left on device", env={**self.preloaded(FAULTS), "FAULTS": "write"})

    def test_a_sync_that_fails_behind_a_write_that_finds_no_room(self):
        # Another descriptor of the image is synced, and what was written before may be lost.
        self.saves(b"", 0)
        self.told(2, "No space left on device", env={**self.preloaded(FAULTS), "FAULTS": "write sync"})

    def test_an_image_that_cant_be_read(self):
        self.saves(b"", 0)
        path = f"{self.folder}/broken.c"
        with open(path, "w", encoding="ascii") as file:
            file.write(BROKEN_READS)
        self.told(2, "Input/output error", env=self.preloaded(path))
        self.assertFalse(os.path.exists(f"{self.image}.0"))

    def test_a_limit_on_the_size_of_files(self):
        self.saves(b"", 0, "--sparse")
        limit = 512 * 200
        self.told(1, "File too large", preexec_fn=lambda: resource.setrlimit(resource.RLIMIT_FSIZE, (limit, limit)))

    def test_an_image_that_finds_no_room_isnt_made(self):
        self.told(1, "No space left on device", env={**self.preloaded(FAULTS), "FAULTS": "write"})
        self.assertEqual(os.listdir(self.folder), ["faults.so"])

    def test_a_sync_that_fails_as_the_image_is_made(self):
        self.told(2, "Input/output error", env={**self.preloaded(FAULTS), "FAULTS": "sync"})
        self.assertEqual(os.listdir(self.folder), ["faults.so"])

    def test_a_volume_that_other_files_fill(self):
        # With one file of its own there is none that may go: what was saved before stays.
        self.saves(b"one\n", 1)
        with pansuyog.Volume(self.image, library=LIBRARY) as volume:
            volume.append("/of another", b"x" * 65_536)
            with self.assertRaises(pansuyog.NoSpace):
                while True:
                    volume.append("/of another", b"x" * 65_536)
            with self.assertRaises(pansuyog.NoSpace):
                while True:
                    volume.append("/of another", b"x" * 512)
        self.told(1, "the volume has no space for this", data=b"y" * 60_000 + b"\n")
        self.assertEqual(self.files()[name_of(1)], b"one\n")

    def test_an_input_that_is_refused(self):
        none = f"{self.folder}/none"
        for words in (["--input", self.folder], ["--input", none], ["--serial", "/dev/null"], ["--serial", none]):
            with self.subTest(words=words):
                status, _, errors = self.run_on(b"", *words)
                told, saved = errors.splitlines()
                self.assertEqual((status, saved), (1, "saved 0"))
                self.assertTrue(told.startswith(f"{words[1]}: "), told)
                # The input is opened before the image is made.
                self.assertEqual(os.listdir(self.folder), [])

    def test_a_bad_command_line(self):
        for words in (["--lines", "0"], ["--lines", "x"], ["--lines"], ["--size", "33M"], ["--size", "0"], ["--seconds", "01"], ["--none"],
                      ["-x"], ["--lines=5x"], ["--file", "9M"], ["--buffer", "1K"], ["another"], ["--serial", "/dev/null:7"], ["--copy"],
                      ["--lines", "5K"], ["--size", "18446744073709551617"], ["--input", "a", "--serial", "b"], ["--status="]):
            with self.subTest(words=words):
                status, output, errors = self.run_on(b"", *words, size=None)
                self.assertEqual((status, output), (2, ""))
                self.assertIn("usage: pansuyog-record IMAGE", errors)
                self.assertEqual(os.listdir(self.folder), [])
        self.assertEqual(subprocess.run([PROGRAM], stderr=subprocess.PIPE, check=False).returncode, 2)

    def test_help(self):
        ran = subprocess.run([PROGRAM, "--help"], stdout=subprocess.PIPE, stderr=subprocess.PIPE, check=False)
        self.assertEqual((ran.returncode, ran.stderr), (0, b""))
        options = ("--size BYTES", "--sparse", "--lines LINES", "--seconds SECONDS", "--file BYTES", "--keep FILES", "--buffer BYTES",
                   "--acknowledge", "--input FIFO", "--serial TTY[:BAUD]", "--copy FOLDER", "--status FILE")
        self.assertEqual([it for it in options if it not in ran.stdout.decode()], [])


class Streams(OfTheRecorder):
    """Standard streams that are closed, or that nobody reads."""

    def test_each_save_is_acknowledged(self):
        child = self.started("--lines", "2", "--seconds", "1000", "--acknowledge")
        for count in (2, 4):
            child.stdin.write(b"a line\n" * 2)
            child.stdin.flush()
            self.assertEqual(child.stdout.readline(), b"%d\n" % count)
        self.assertEqual(child.communicate(b"a line"), (b"5\n", b"saved 5\n"))

    def test_closed_streams_do_no_harm(self):
        child = self.started("--acknowledge", preexec_fn=lambda: [os.close(it) for it in (1, 2)])
        child.communicate(b"line\n" * 100)
        self.assertEqual((child.returncode, self.content()), (0, b"line\n" * 100))

    def test_a_closed_input_is_an_empty_one(self):
        child = self.started(preexec_fn=lambda: os.close(0))
        self.assertEqual((child.wait(), child.stderr.read()), (0, b"saved 0\n"))

    def test_acknowledging_alone_ends_where_nobody_reads_any_more(self):
        child = self.started("--lines", "1", "--acknowledge")
        child.stdin.write(b"one\n")
        child.stdin.flush()
        self.assertEqual(child.stdout.readline(), b"1\n")
        child.stdout.close()
        child.stdin.write(b"line\n" * 1000)
        child.stdin.close()
        self.assertEqual((child.stderr.read(), child.wait()), (b"saved 1001\n", 0))

    def test_one_who_reads_nothing_holds_nothing_up(self):
        # The pipe is full from the start on.
        ends = os.pipe()
        fcntl.fcntl(ends[1], fcntl.F_SETPIPE_SZ, 4096)
        os.write(ends[1], b"x" * 4096)
        child = self.started("--lines", "1", "--acknowledge", stdout=ends[1])
        os.close(ends[1])
        self.assertEqual((child.communicate(b"a line\n" * 100)[1], child.returncode), (b"saved 100\n", 0))
        os.close(ends[0])
        self.assertEqual(self.content(), b"a line\n" * 100)

    def test_one_who_reads_late_is_told_the_newest_number(self):
        ends = os.pipe()
        fcntl.fcntl(ends[1], fcntl.F_SETPIPE_SZ, 4096)
        os.write(ends[1], b"x" * 4096)
        child = self.started("--lines", "1", "--acknowledge", stdout=ends[1])
        os.close(ends[1])
        child.stdin.write(b"a line\n" * 100)
        child.stdin.flush()
        self.waits_for(lambda: os.path.exists(self.image))
        time.sleep(0.3)
        self.assertEqual(os.read(ends[0], 4096), b"x" * 4096)
        child.communicate(b"a line\n" * 100)
        self.assertEqual(os.read(ends[0], 4096).split()[-1], b"200")
        os.close(ends[0])


if __name__ == "__main__":
    PROGRAM = os.path.realpath(sys.argv.pop(1))
    unittest.main()
