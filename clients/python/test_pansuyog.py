"""Tests of the client over the program: python3 test_pansuyog.py LFS. Most of them `test_library.py` has over the library too."""
import contextlib
import csv
import gc
import io
import json
import os
import random
import re
import shutil
import signal
import socket
import subprocess
import sys
import tarfile
import tempfile
import time
import unittest
import zipfile
from unittest import mock

import pansuyog

HERE = os.path.dirname(os.path.realpath(__file__))
VOLUMES = 10
KILLS = 10  # of the recorder, on each volume


class Program:
    """Volumes that the program makes and mounts."""

    name = "program"

    def __init__(self, path):
        self.path = path

    def make(self, image, segments, format=1, **how):
        pansuyog.make(image, segments, self.path, format, **how)

    def mounted(self, image, **how):
        return pansuyog.ProcessVolume(image, self.path, **how)

    def words(self):
        """The words of the module's command line that name it."""
        return ["--lfs", self.path]

    def shown(self, code, image):
        """What a page shows of `Volume`, as code over an image."""
        return code.replace("Volume", "ProcessVolume").replace('"disk.img"', f"{image!r}, {self.path!r}")


# The program, and what is tested.
program = os.environ.get("LFS", "lfs")
used = Program(program)


def random_bytes(count, seed=None):
    return (random.Random(seed).getrandbits(8 * count + 1) >> 1).to_bytes(count, "little")


def put(path, data=b""):
    with open(path, "wb") as file:
        file.write(data)


class OnAVolume(unittest.TestCase):
    def setUp(self):
        folder = tempfile.TemporaryDirectory()
        self.addCleanup(folder.cleanup)
        self.image = os.path.join(folder.name, "disk.img")
        used.make(self.image, 64)

    def mounted(self, **how):
        volume = used.mounted(self.image, **how)
        self.addCleanup(volume.close)
        return volume

    def names(self, volume, path="/"):
        return [entry.name for entry in volume.readdir(path)]


class Calls(OnAVolume):
    def test_bytes_go_in_and_out(self):
        volume = self.mounted()
        handle = volume.create("/a file")
        self.assertEqual(volume.pwrite(handle, 3, bytes(range(256))), 256)
        self.assertEqual(volume.pread(handle, 0, 10), b"\0\0\0\0\1\2\3\4\5\6")
        self.assertEqual(volume.fill(handle, 0, 3, 255), 3)
        self.assertEqual(volume.pread(handle, 0, 5), b"\xff\xff\xff\0\1")
        self.assertEqual(volume.pread(handle, 1000, 10), b"")
        volume.truncate(handle, 4)
        self.assertEqual(volume.stat("/a file"), pansuyog.Stat(2, "file", 1, 4))

    def test_directories_and_links_are_told(self):
        volume = self.mounted()
        volume.mkdir("/d e")
        volume.symlink("d e", "/l")
        volume.create("/l/f")
        self.assertEqual(volume.readlink("/l"), b"d e")
        self.assertEqual(volume.stat("/l"), pansuyog.Stat(2, "dir", 2, 64))
        self.assertEqual(volume.lstat("/l"), pansuyog.Stat(3, "link", 1, 3))
        self.assertEqual(volume.readdir("/"), [pansuyog.Entry(b"d e", 2, "dir"), pansuyog.Entry(b"l", 3, "link")])
        self.assertEqual(volume.readdir("/d e"), [pansuyog.Entry(b"f", 4, "file")])

    def test_names_come_and_go(self):
        volume = self.mounted()
        volume.mkdir("/d")
        handle = volume.create("/f")
        volume.pwrite(handle, 0, b"kept")
        volume.link("/f", "/d/g")
        self.assertEqual(volume.stat("/d/g").links, 2)
        volume.unlink("/d/g")
        volume.unlink("/f")
        self.assertEqual(volume.pread(handle, 0, 9), b"kept")
        volume.rename("/d", "/e")
        volume.rmdir("/e")
        self.assertEqual(volume.readdir("/"), [])

    def test_a_renamed_file_takes_the_place_of_another(self):
        volume = self.mounted()
        volume.create("/old")
        handle = volume.create("/new")
        volume.pwrite(handle, 0, b"new")
        volume.rename("/new", "/old")
        self.assertEqual(volume.tree(), [pansuyog.TreeRow(1, b"old", "file", 3, 1, 3, b"new")])
        with self.assertRaises(pansuyog.NoEntry):
            volume.rename("/new", "/old")

    def test_what_was_synced_is_there_again(self):
        volume = self.mounted()
        handle = volume.create(b"/n\xc3\xa4me\\")
        volume.pwrite(handle, 0, b"kept")
        volume.sync()
        volume.pwrite(handle, 4, b" and lost")
        volume.close()
        self.assertEqual(self.mounted().tree(), [pansuyog.TreeRow(1, b"n\xc3\xa4me\\", "file", 2, 1, 4, b"kept")])

    def test_a_refusal_is_an_exception_of_its_name(self):
        volume = self.mounted()
        with self.assertRaises(pansuyog.NoEntry):
            volume.open("/not there")
        with self.assertRaises(pansuyog.BadHandle):
            volume.pread(7, 0, 1)
        with self.assertRaises(pansuyog.Refused):
            volume.pread(volume.create("/f"), 0, 65_537)
        volume.sync()

    def test_arguments_that_no_line_has_leave_the_volume_running(self):
        volume = self.mounted()
        handle = volume.create("/f")
        for call in (lambda: volume.pread(handle, -1, 5), lambda: volume.pread(1 << 32, 0, 5), lambda: volume.fill(handle, 0, 1, 256)):
            self.assertRaises(ValueError, call)
        self.assertRaises(pansuyog.Inval, volume.pwrite, handle, 0, bytes(80_000))
        self.assertRaises(pansuyog.BadHandle, volume.pwrite, 9, 0, bytes(80_000))
        self.assertEqual(volume.pwrite(handle, 0, b"x"), 1)

    def test_names_are_as_long_as_the_format_has_them(self):
        volume = self.mounted()
        self.assertEqual(volume.version(), 1)
        with self.assertRaises(pansuyog.NameTooLong):
            volume.mkdir("/" + "n" * 60)
        volume.close()
        used.make(self.image, 64, format=2, force=True)
        volume = self.mounted()
        self.assertEqual(volume.version(), 2)
        volume.write_file("/" + "n" * 123, b"one")
        self.assertEqual(volume.readdir("/"), [pansuyog.Entry(b"n" * 123, 2, "file")])
        with self.assertRaises(pansuyog.NameTooLong):
            volume.write_file("/" + "n" * 124, b"one")

    def test_an_old_volume_moves_over(self):
        volume = self.mounted()
        volume.mkdir("/d")
        volume.write_file("/d/f", b"kept")
        with self.assertRaises(pansuyog.Inval):
            volume.widen("/d")
        volume.upgrade()
        self.assertEqual(volume.version(), 2)
        with self.assertRaises(pansuyog.NameTooLong):
            volume.mkdir("/d/" + "n" * 60)
        self.assertEqual(volume.stat("/d").size, 64)
        volume.widen("/d")
        self.assertEqual(volume.stat("/d").size, 128)
        volume.mkdir("/d/" + "n" * 123)
        with self.assertRaises(pansuyog.NotDir):
            volume.widen("/d/f")
        volume.sync()
        volume.close()
        volume = self.mounted()
        self.assertEqual(volume.version(), 2)
        self.assertEqual(volume.read("/d/f"), b"kept")
        self.assertEqual([entry.name for entry in volume.readdir("/d")], [b"f", b"n" * 123])

    def test_space_is_four_numbers(self):
        space = self.mounted().space()
        self.assertEqual((space.data, space.need, space.limit), (0, 7 * space.meta + 720, 47 * 64))

    def test_each_call_of_the_base_is_a_call_of_a_volume(self):
        with self.assertRaises(NotImplementedError):
            pansuyog.Calls().sync()
        self.assertTrue(issubclass(pansuyog.Files, pansuyog.Calls))
        self.assertTrue(all(issubclass(it, pansuyog.Files) for it in (pansuyog.Volume, pansuyog.ProcessVolume)))


class Files(OnAVolume):
    def test_a_whole_file_goes_in_and_out(self):
        volume = self.mounted()
        for size in (0, 1, 65_535, 65_536, 65_537, 200_000):
            data = random_bytes(size, size)
            volume.write_file("/f", data)
            self.assertEqual(volume.read("/f"), data)
        self.assertEqual([entry.name for entry in volume.readdir("/")], [b"f"])

    def test_no_file_is_put_where_lfs_put_puts_none(self):
        volume = self.mounted()
        volume.mkdir("/d")
        volume.write_file("/f", b"kept")
        refused = {"": "NoEntry", "/": "Busy", "/..": "Inval", "/.lfs-put": "Inval", "/" + "n" * 60: "NameTooLong", "/f/": "NotDir", "/d": "IsDir"}
        for path, name in refused.items():
            self.assertRaises(getattr(pansuyog, name), volume.write_file, path, b"new")
        self.assertRaises(pansuyog.NoSpace, volume.write_file, "/f", b"x" * 1_200_000)
        self.assertEqual(volume.read("/f"), b"kept")
        self.assertEqual([entry.name for entry in volume.readdir("/")], [b"d", b"f"])

    def test_records_stand_behind_one_another_and_are_synced(self):
        volume = self.mounted()
        self.assertEqual([volume.append("/log", record) for record in (b"one", b"two", b"")], [0, 3, 6])
        volume.kill()
        volume = self.mounted()
        self.assertEqual(volume.read("/log"), b"onetwo")
        self.assertRaises(pansuyog.Inval, volume.append, "/log", bytes(65_537))

    def test_what_is_no_record_makes_no_file(self):
        volume = self.mounted()
        with self.assertRaisesRegex(pansuyog.Inval, "^append /log: a record has at most 65536 bytes, and this one 65537$"):
            volume.append("/log", bytes(65_537))
        for call in (volume.append, volume.write_file):
            with self.assertRaisesRegex(TypeError, "^data has to be bytes, and this is str$"):
                call("/log", "text")
            self.assertRaises(TypeError, call, "/log", 5)
        self.assertEqual(self.names(volume), [])
        self.assertEqual(volume.append("/log", bytes(65_536)), 0)
        self.assertRaises(TypeError, volume.pwrite, volume.open("/log"), 0, "text")
        for data in (bytearray(b"ab"), memoryview(b"axbx")[::2]):
            volume.write_file("/f", data)
            self.assertEqual(volume.read("/f"), b"ab")

    def test_nothing_unfinished_is_left_of_a_file(self):
        volume = self.mounted()
        volume.write_file("/f", b"kept")
        for error in (KeyboardInterrupt, OSError, pansuyog.NoSpace):
            with mock.patch.object(volume, "rename", side_effect=error):
                self.assertRaises(error, volume.write_file, "/f", b"new")
            self.assertEqual((self.names(volume), volume.read("/f")), ([b"f"], b"kept"))

    def test_a_tree_is_walked_from_above(self):
        volume = self.mounted()
        for path in ("/a", "/a/b", "/c"):
            volume.mkdir(path)
        volume.write_file("/a/b/f", b"")
        volume.symlink("a", "/l")
        self.assertEqual(list(volume.walk()), [(b"/", [b"a", b"c"], [b"l"]), (b"/a", [b"b"], []), (b"/a/b", [], [b"f"]), (b"/c", [], [])])

    def test_a_folder_comes_out_as_it_went_in(self):
        with tempfile.TemporaryDirectory() as room:
            folder, out = os.path.join(room, "in"), os.path.join(room, "out")
            os.makedirs(os.path.join(folder, "empty"))
            os.symlink("empty", os.path.join(folder, "link"))
            for number in range(40):
                inner = os.path.join(folder, f"d {number % 3}")
                os.makedirs(inner, exist_ok=True)
                put(os.path.join(inner, f"fä{number}"), random_bytes(97 * number, number))
            volume = self.mounted()
            told = (40, 97 * 40 * 39 // 2)
            self.assertEqual(volume.write_tree(folder), (*told, []))
            volume.kill()
            self.assertEqual(self.mounted().export(out), told)
            self.assertEqual(subprocess.run(["diff", "-r", "--no-dereference", folder, out]).returncode, 0)

    def test_what_no_volume_has_is_left_out(self):
        with tempfile.TemporaryDirectory() as folder, contextlib.closing(socket.socket(socket.AF_UNIX)) as listening:
            os.mkdir(f"{folder}/d")
            put(f"{folder}/d/f", b"one")
            os.mkfifo(f"{folder}/d/fifo")
            listening.bind(f"{folder}/socket")
            volume, wanted = self.mounted(), [f"{folder}/d/fifo", f"{folder}/socket"]
            with self.assertWarns(pansuyog.Omitted) as caught:
                self.assertEqual(volume.write_tree(folder), pansuyog.Written(1, 3, wanted))
            texts = [str(it.message) for it in caught.warnings]
            self.assertEqual(texts, [f"{it}: it is neither a file, a folder nor a link, so it is left out" for it in wanted])
            self.assertEqual(list(volume.walk()), [(b"/", [b"d"], []), (b"/d", [], [b"f"])])

    def refused_tree(self, volume, path, told, into="/", **how):
        """Puts a folder with a file, and behind it in the order of names one that is refused. Then nothing is put."""
        with tempfile.TemporaryDirectory() as folder:
            put(f"{folder}/0")
            os.makedirs(os.path.dirname(f"{folder}/{path}"), exist_ok=True)
            if "text" in how:
                os.symlink(how["text"], f"{folder}/{path}")
            else:
                put(f"{folder}/{path}")
            before = list(volume.walk())
            with self.assertRaises((pansuyog.NameTooLong, pansuyog.Inval, pansuyog.Exist)) as caught:
                volume.write_tree(folder, into)
            self.assertIn(told, str(caught.exception))
            self.assertEqual(list(volume.walk()), before)

    def taken_tree(self, volume, path, into="/"):
        with tempfile.TemporaryDirectory() as folder:
            os.makedirs(os.path.dirname(f"{folder}/{path}"), exist_ok=True)
            put(f"{folder}/{path}", b"put")
            self.assertEqual(volume.write_tree(folder, into), (1, 3, []))
            self.assertEqual(volume.read(f"{into}/{path}".replace("//", "/")), b"put")

    def test_names_that_are_too_long_are_told_before_anything_is_put(self):
        short, long = "n" * 59, "n" * 123
        volume = self.mounted()
        volume.mkdir("/old")
        self.refused_tree(volume, f"new/{short}x", f"/new/{short}x: a name has at most 59 bytes here, and this one 60")
        self.refused_tree(volume, f"old/{short}x", "59 bytes")
        self.refused_tree(volume, f"{short}x/f", "59 bytes")
        self.taken_tree(volume, f"new/{short}")
        volume.upgrade()
        # These two directories have form 0, also the one without entries.
        self.refused_tree(volume, f"new/{short}x", "59 bytes")
        self.refused_tree(volume, f"old/{short}x", "59 bytes")
        self.refused_tree(volume, f"{short}x", "59 bytes", into="/old")
        self.refused_tree(volume, f"newer/{long}x", "a name has at most 123 bytes here, and this one 124")
        self.taken_tree(volume, f"newer/{long}")
        volume.widen("/old")
        self.taken_tree(volume, f"old/{long}")
        self.refused_tree(volume, f"old/{long}x", "123 bytes")

    def test_what_no_call_takes_is_told_before_anything_is_put(self):
        volume = self.mounted()
        volume.mkdir("/d")
        volume.write_file("/f", b"a file")
        volume.symlink("d", "/l")
        self.refused_tree(volume, "link", "the text of a link has at most 1023 bytes, and this one 1024", text="t" * 1_024)
        self.refused_tree(volume, "x/.lfs-put", "nothing is put under this name")
        self.refused_tree(volume, "f/inner", "mkdir /f: this is there already")
        self.refused_tree(volume, "l/inner", "mkdir /l: this is there already")
        self.assertRaises(pansuyog.NoEntry, volume.write_tree, HERE, "/not there")
        self.assertRaises(pansuyog.NotDir, volume.write_tree, HERE, "/f")
        self.taken_tree(volume, "into", into="/l")

    def test_paths_that_are_too_long_are_told_before_anything_is_put(self):
        volume = self.mounted()
        folder = "/".join(["n" * 59] * 16) + "/" + "n" * 51
        self.assertEqual(len(f"/{folder}/"), 1_013)
        self.taken_tree(volume, f"{folder}/{'n' * 10}")
        self.refused_tree(volume, f"{folder}/{'n' * 11}", "a path has at most 1023 bytes, and this one needs 1024")
        # A file of a short name first has one of eight bytes.
        volume.rename("/" + folder, "/" + folder + "nn")
        self.taken_tree(volume, f"{folder}nn/s")
        self.refused_tree(volume, f"{folder}nnn/s", "this one needs 1024")

    def test_a_tree_is_synced_at_its_end(self):
        with tempfile.TemporaryDirectory() as folder:
            for number in range(30):
                put(f"{folder}/{number:02}", b"x" * 1_000)
            for each, syncs in ((64 << 20, 1), (10_000, 4), (1, 31)):
                volume = self.mounted()
                with mock.patch.object(volume, "sync", wraps=volume.sync) as sync:
                    self.assertEqual(volume.write_tree(folder, sync_each=each), (30, 30_000, []))
                self.assertEqual(sync.call_count, syncs)
                volume.kill()
                volume = self.mounted()
                self.assertEqual([volume.read(path) for path in self.names(volume)], [b"x" * 1_000] * 30)
                volume.close()

    def test_a_tree_that_does_not_fit_keeps_what_was_put(self):
        with tempfile.TemporaryDirectory() as folder:
            put(f"{folder}/1", b"one")
            os.symlink("1", f"{folder}/2")
            put(f"{folder}/3", b"x" * 1_200_000)
            volume = self.mounted()
            volume.write_file("/2", b"a file")
            self.assertRaises(pansuyog.NoSpace, volume.write_tree, folder)
            volume.kill()
            volume = self.mounted()
            self.assertEqual(self.names(volume), [b"1", b"2"])
            self.assertEqual((volume.read("/1"), volume.readlink("/2")), (b"one", b"1"))

    def deep(self, volume):
        """Renames a directory to where a path to what is below it has more than 1,023 bytes."""
        upper, lower = ("/".join([""] + [letter * 59] * 9) for letter in "ab")
        for chain in (upper, lower):
            for end in range(60, len(chain) + 1, 60):
                volume.mkdir(chain[:end])
            volume.write_file(f"{chain}/f", b"deep")
        volume.write_file("/z", b"last")
        volume.rename("/" + "b" * 59, f"{upper}/" + "b" * 59)
        return upper.encode(), f"{upper}{lower}".encode()

    def test_a_path_that_no_call_takes_is_left_out(self):
        volume = self.mounted()
        upper, whole = self.deep(volume)
        # The seventeenth directory has a path of 1,020 bytes, and the next one 1,080.
        with self.assertWarnsRegex(pansuyog.Omitted, f"^{whole[:1_080].decode()}: a path has at most 1023 bytes, and this one 1080, so it is left out$"):
            walked = list(volume.walk())
        self.assertEqual(len(walked), 18)
        self.assertEqual(walked[-1], (whole[:1_020], [b"b" * 59], []))
        self.assertEqual(walked[9], (upper, [b"b" * 59], [b"f"]))
        with tempfile.TemporaryDirectory() as room, self.assertWarns(pansuyog.Omitted) as caught:
            self.assertEqual(volume.export(f"{room}/out"), (2, 8))
        self.assertEqual(len(caught.warnings), 1)

    def test_nothing_is_written_over(self):
        with tempfile.TemporaryDirectory() as room:
            self.assertRaises(FileExistsError, self.mounted().export, room)


class FileObjects(OnAVolume):
    def test_a_file_behaves_as_one_of_the_host(self):
        dice = random.Random(5)
        volume = self.mounted()
        for mode in ("w", "r+", "a+", "w+", "a", "r", "r+b"):
            with volume.file("/f", mode) as file, open(f"{self.image}.host", mode.replace("b", "") + "b", buffering=0) as model:
                self.assertEqual([getattr(file, it)() for it in ("readable", "writable", "seekable")], [getattr(model, it)() for it in ("readable", "writable", "seekable")])
                for _ in range(60):
                    self.assertEqual(self.done(file, *self.step(dice)), self.done(model, *self.last), (mode, self.last))
            with open(f"{self.image}.host", "rb") as model:
                self.assertEqual(volume.read("/f"), model.read())

    def step(self, dice):
        """A call of a file, with its arguments."""
        name = dice.choice(["read", "readall", "write", "write", "seek", "tell", "truncate", "readinto"])
        size = dice.choice([0, 1, 511, 512, 513, 66_000])
        whence = dice.choice([os.SEEK_SET, os.SEEK_CUR, os.SEEK_END])
        given = {"read": [dice.choice([size, -1])], "write": [random_bytes(size, size)], "seek": [size if whence == 0 else -size // 2, whence]}
        self.last = name, given.get(name, dice.choice([[], [size]]) if name == "truncate" else [size] if name == "readinto" else [])
        return self.last

    @staticmethod
    def done(file, name, given):
        """What a call answers, with what it read, and where the file is then."""
        buffer = bytearray(given[0]) if name == "readinto" else None
        try:
            answer = getattr(file, name)(*([buffer] if buffer is not None else given))
        except (ValueError, OSError):
            answer = "refused"
        return answer, buffer, file.tell()

    def test_rows_go_in_and_out_by_csv(self):
        volume = self.mounted()
        rows = [["2026-12-01", "Überdruck, außen", "4.2"], ["2026-12-02", 'a "word"', "two\nlines"]]
        for row in rows:
            with io.TextIOWrapper(volume.file("/days.csv", "a"), encoding="utf-8", newline="") as file:
                csv.writer(file).writerow(row)
        with io.TextIOWrapper(volume.file("/days.csv"), encoding="utf-8", newline="") as file:
            self.assertEqual(list(csv.reader(file)), rows)
        self.assertEqual(volume.read("/days.csv").count(b"\r\n"), 2)

    def test_json_goes_in_and_out(self):
        volume, value = self.mounted(), {"name": "Überdruck", "values": [1, 2.5, None]}
        with io.TextIOWrapper(volume.file("/v.json", "w"), encoding="utf-8") as file:
            json.dump(value, file)
        with volume.file("/v.json", "rb") as file:
            self.assertEqual(json.load(file), value)
        with volume.file("/v.json", "w") as file, self.assertRaisesRegex(TypeError, "^data has to be bytes, and this is str$"):
            json.dump(value, file)

    def test_archives_are_written_and_read(self):
        volume, data = self.mounted(), random_bytes(150_000, 7)
        for path, mode in (("/plain.tar", ""), ("/packed.tar", "gz")):
            with volume.file(path, "x") as file, tarfile.open(fileobj=file, mode=f"w:{mode}") as archive:
                member = tarfile.TarInfo("a/b")
                member.size = len(data)
                archive.addfile(member, io.BytesIO(data))
            with volume.file(path) as file, tarfile.open(fileobj=file) as archive:
                self.assertEqual(archive.extractfile("a/b").read(), data)
        with volume.file("/a.zip", "w+") as file, zipfile.ZipFile(file, "w", zipfile.ZIP_DEFLATED) as archive:
            archive.writestr("one", data)
        with volume.file("/a.zip", "r+") as file, zipfile.ZipFile(file, "a") as archive:
            archive.writestr("two", b"two")
        with volume.file("/a.zip") as file, zipfile.ZipFile(file) as archive:
            self.assertEqual((archive.testzip(), archive.read("one"), archive.read("two")), (None, data, b"two"))

    def test_buffers_stand_over_a_file(self):
        volume = self.mounted()
        lines = [b"line %d\n" % number for number in range(3_000)]
        with io.BufferedWriter(volume.file("/log", "a")) as file, mock.patch.object(volume, "pwrite", wraps=volume.pwrite) as pwrite:
            file.writelines(lines)
            file.flush()
        self.assertLess(pwrite.call_count, 10)
        with io.BufferedReader(volume.file("/log")) as file:
            self.assertEqual(list(file), lines)
        with open(f"{self.image}.copy", "wb") as copy, volume.file("/log") as file:
            shutil.copyfileobj(file, copy)
        with open(f"{self.image}.copy", "rb") as copy:
            self.assertEqual(copy.read(), b"".join(lines))

    def test_what_was_saved_stays(self):
        volume = self.mounted()
        with volume.file("/log", "x") as file:
            file.write(b"kept")
            file.save()
            file.write(b" and lost")
        volume.kill()
        self.assertEqual(self.mounted().read("/log"), b"kept")

    def test_refusals_are_those_of_the_calls(self):
        volume = self.mounted()
        volume.mkdir("/d")
        volume.write_file("/f", b"kept")
        for path, mode, name in (("/none", "r", "NoEntry"), ("/none/f", "w", "NoEntry"), ("/d", "r", "IsDir"), ("/d", "w", "IsDir"), ("/f", "x", "Exist"), ("/f/g", "a", "NotDir")):
            self.assertRaises(getattr(pansuyog, name), volume.file, path, mode)
        for mode, told in (("rt", "io.TextIOWrapper"), ("", "none of r, w, x and a"), ("rw", "none of"), ("r++", "none of"), ("b", "none of")):
            with self.assertRaisesRegex(ValueError, told):
                volume.file("/f", mode)
        with volume.file("/f", "r+") as file:
            for data in ("text", 5):
                self.assertRaisesRegex(TypeError, "^data has to be bytes, and this is ", file.write, data)
            file.seek(8_511_488)
            self.assertRaises(pansuyog.FileTooBig, file.write, b"x")
            file.seek(4)
            self.assertRaises(pansuyog.NoSpace, file.write, b"x" * 1_300_000)
            self.assertEqual(volume.read("/f"), b"kept" + b"x" * (file.tell() - 4))

    def test_a_file_without_a_name_is_a_file_still(self):
        volume = self.mounted()
        with volume.file("/f", "w+") as file:
            volume.unlink("/f")
            file.write(b"here")
            self.assertEqual((file.seek(0, os.SEEK_END), file.seek(0), file.read()), (4, 0, b"here"))
        self.assertEqual(self.names(volume), [])

    def test_a_closed_file_takes_no_call(self):
        volume = self.mounted()
        file = volume.file("/f", "w+")
        file.close()
        file.close()
        for call in (file.read, file.tell, file.save, file.truncate, lambda: file.write(b""), lambda: file.seek(0)):
            self.assertRaises(ValueError, call)
        self.assertEqual(volume.create("/g"), 0)

    def test_a_file_may_be_closed_behind_its_volume(self):
        with self.mounted() as volume:
            file = volume.file("/f", "w")
        self.assertRaises(ValueError, file.write, b"late")
        file.close()
        self.assertTrue(file.closed)

    def test_a_forgotten_file_gives_its_handle_back(self):
        volume = self.mounted()
        for _ in range(200):
            with self.assertWarns(ResourceWarning):
                file = volume.file("/f", "a")
                file.again = file
                del file
                gc.collect()
        self.assertLessEqual(volume.create("/g"), 1)

    def test_what_is_only_read_is_not_written(self):
        volume = self.mounted()
        volume.write_file("/f", b"kept")
        volume.close()
        volume = self.mounted(read_only=True)
        with volume.file("/f") as file:
            self.assertEqual(file.read(), b"kept")
            self.assertRaises(io.UnsupportedOperation, file.write, b"new")
        self.assertRaises(pansuyog.ReadOnly, volume.file, "/f", "w")
        self.assertRaises(pansuyog.ReadOnly, volume.file, "/g", "a")
        with volume.file("/f", "r+") as file:
            self.assertRaises(pansuyog.ReadOnly, file.write, b"new")
        self.assertEqual(volume.read("/f"), b"kept")


class Archives(OnAVolume):
    def setUp(self):
        super().setUp()
        room = tempfile.TemporaryDirectory()
        self.addCleanup(room.cleanup)
        self.room = room.name

    def folder(self):
        """A folder of the host with all that an archive may have of one, with names and paths that are longer than an old archive takes."""
        folder, deep = os.fsencode(f"{self.room}/in"), b"/".join([b"d" * 59] * 4)
        for path in (b"empty", deep):
            os.makedirs(os.path.join(folder, path))
        for number, name in enumerate((b"a b", b"n" * 59, b"\xff\xfe", "Überdruck".encode(), deep + b"/f", b"-x", b"empty file")):
            put(os.path.join(folder, name), random_bytes(30_011 * number, number))
        put(os.path.join(folder, b"empty file"))
        os.link(os.path.join(folder, b"a b"), os.path.join(folder, deep, b"second"))
        os.link(os.path.join(folder, b"a b"), os.path.join(folder, b"third"))
        os.symlink(b"../" * 60 + b"\xff", os.path.join(folder, b"link"))
        os.symlink(b"empty", os.path.join(folder, b"to a folder"))
        return folder

    def assert_same(self, folder, other):
        ran = subprocess.run(["diff", "-r", "--no-dereference", folder, other], capture_output=True, check=False)
        self.assertEqual((ran.returncode, ran.stdout), (0, b""))

    def packed(self, folder, name, *words):
        """An archive of a folder, which the system's `tar` makes."""
        subprocess.run(["tar", *words, "-cf", f"{self.room}/{name}", "-C", folder, "."], check=True)
        return f"{self.room}/{name}"

    def unpacked(self, archive, name):
        out = f"{self.room}/{name}"
        os.mkdir(out)
        subprocess.run(["tar", "-xf", archive, "-C", out], check=True)
        return out

    def test_an_archive_comes_out_as_it_went_in(self):
        folder, told = self.folder(), (7, 30_011 * 15)
        for number, words in enumerate((["--format=gnu"], ["--format=pax"], ["-z"])):
            used.make(self.image, 64, force=True)
            volume = self.mounted()
            with open(self.packed(folder, f"{number}.tar", *words), "rb") as file:
                self.assertEqual(volume.import_tar(file), (*told, []))
            volume.kill()
            volume = self.mounted()
            self.assertEqual((volume.stat("/a b").links, volume.stat("/third").number), (3, volume.stat("/a b").number))
            with open(f"{self.room}/out {number}.tar", "wb") as file:
                self.assertEqual(volume.export_tar(file), told)
            out = self.unpacked(f"{self.room}/out {number}.tar", f"out {number}")
            self.assert_same(folder, out)
            self.assertTrue(os.path.samefile(f"{out}/third", f"{out}/a b"))
            self.assertLess(abs(os.stat(f"{out}/third").st_mtime - time.time()), 600)
            volume.close()

    def test_an_archive_goes_into_a_directory_and_over_what_is_there(self):
        folder, volume = self.folder(), self.mounted()
        volume.mkdir("/d")
        volume.write_file("/kept", b"kept")
        packed = self.packed(folder, "a.tar")
        for _ in range(2):
            with open(packed, "rb") as file:
                volume.import_tar(file, "/d/")
        with open(f"{self.room}/out.tar", "wb") as file:
            self.assertEqual(volume.export_tar(file, "/d"), (7, 30_011 * 15))
        self.assert_same(folder, self.unpacked(f"{self.room}/out.tar", "out"))
        self.assertEqual(self.names(volume), [b"d", b"kept"])
        self.assertRaises(pansuyog.NotDir, volume.export_tar, io.BytesIO(), "/kept")
        self.assertRaises(pansuyog.NoEntry, volume.import_tar, io.BytesIO(), "/none")

    def archive_of(self, *members):
        """An archive of these members: names with a kind, and a text of a link or the bytes of a file."""
        file = io.BytesIO()
        with tarfile.open(fileobj=file, mode="w") as archive:
            for name, kind, what in members:
                member = tarfile.TarInfo(name)
                member.type = kind
                if kind == tarfile.REGTYPE:
                    member.size = len(what)
                else:
                    member.linkname = what
                archive.addfile(member, io.BytesIO(what) if kind == tarfile.REGTYPE else None)
        file.seek(0)
        return file

    def test_what_leads_out_of_the_folder_is_left_out(self):
        volume = self.mounted()
        volume.mkdir("/d")
        file = self.archive_of(
            ("../up", tarfile.REGTYPE, b"up"),
            ("/a/../../b", tarfile.REGTYPE, b"up"),
            ("pipe", tarfile.FIFOTYPE, ""),
            ("name", tarfile.LNKTYPE, "../f"),
            ("/one//./two/f", tarfile.REGTYPE, b"in"),
        )
        with self.assertWarns(pansuyog.Omitted) as caught:
            self.assertEqual(volume.import_tar(file, "/d"), (1, 2, ["../up", "/a/../../b", "pipe", "name"]))
        texts = [str(it.message) for it in caught.warnings]
        self.assertEqual(texts[2:], ["pipe: it is neither a file, a folder nor a link, so it is left out", "name: a name of it has a piece `..`, so it is left out"])
        self.assertEqual(list(volume._all_below(b"/")), [b"/d", b"/d/one", b"/d/one/two", b"/d/one/two/f"])

    def test_what_is_refused_leaves_what_was_put(self):
        volume = self.mounted()
        file = self.archive_of(("one", tarfile.REGTYPE, b"one"), ("two", tarfile.REGTYPE, b"x" * 1_300_000), ("three", tarfile.REGTYPE, b""))
        self.assertRaises(pansuyog.NoSpace, volume.import_tar, file)
        file = self.archive_of(("four", tarfile.REGTYPE, b""), ("n" * 60, tarfile.REGTYPE, b""))
        self.assertRaises(pansuyog.NameTooLong, volume.import_tar, file)
        self.assertRaises(tarfile.ReadError, volume.import_tar, io.BytesIO(b"no archive" * 200))
        self.assertRaises(pansuyog.Inval, volume.import_tar, self.archive_of(("d/.lfs-put", tarfile.REGTYPE, b"")))
        volume.kill()
        self.assertEqual(self.names(self.mounted()), [b"d", b"four", b"one"])

    def test_an_archive_is_synced_at_its_end(self):
        members = [(f"{number:02}", tarfile.REGTYPE, b"x" * 1_000) for number in range(30)]
        for each, syncs in ((64 << 20, 1), (10_000, 4)):
            volume = self.mounted()
            with mock.patch.object(volume, "sync", wraps=volume.sync) as sync:
                self.assertEqual(volume.import_tar(self.archive_of(*members), sync_each=each), (30, 30_000, []))
            self.assertEqual(sync.call_count, syncs)
            volume.close()

    def command(self, *words, **how):
        ran = subprocess.run([sys.executable, "-m", "pansuyog", *words], cwd=HERE, capture_output=True, check=False, **how)
        return ran.returncode, ran.stdout, ran.stderr.decode()

    def test_the_command_line_takes_and_gives_archives(self):
        folder, words, told = self.folder(), used.words(), (0, b"ok 7 files 450165 bytes\n", "")
        packed = self.packed(folder, "in.tar")
        self.assertEqual(self.command("import", self.image, packed, *words), told)
        self.assertEqual(self.command("export", *words, self.image, f"{self.room}/out.tar"), told)
        self.assert_same(folder, self.unpacked(f"{self.room}/out.tar", "out"))
        with open(packed, "rb") as file:
            self.assertEqual(self.command("import", *words, self.image, "-", "--path", "/empty", stdin=file), told)
        status, archive, said = self.command("export", *words, self.image, "-", "--path", "/empty")
        self.assertEqual((status, said), (0, ""))
        put(f"{self.room}/again.tar", archive)
        self.assert_same(folder, self.unpacked(f"{self.room}/again.tar", "again"))

    def test_the_command_line_tells_what_is_refused(self):
        words, archive = used.words(), f"{self.room}/a.tar"
        self.assertEqual(self.command("import", *words, self.image, archive)[::2], (1, f"pansuyog: [Errno 2] No such file or directory: '{archive}'\n"))
        put(archive, b"no archive" * 200)
        self.assertRegex(self.command("import", *words, self.image, archive)[2], f"^pansuyog: {archive}: it isn't an archive of tar, or isn't whole: ")
        status, _, said = self.command("export", *words, self.image, archive)
        self.assertEqual((status, said), (1, f"pansuyog: [Errno 17] File exists: '{archive}'\n"))
        status, _, said = self.command("export", *words, self.image, f"{self.room}/b.tar", "--path", "/none")
        self.assertEqual((status, said), (1, "pansuyog: readdir /none/: the volume has nothing of this name\n"))
        self.assertFalse(os.path.exists(f"{self.room}/b.tar"))
        self.assertEqual(self.command("import", *words, f"{self.image}.none", archive)[0], 1)
        self.assertEqual(self.command("import", *words, self.image)[0], 2)
        with open(archive, "wb") as file:
            file.write(self.archive_of(("pipe", tarfile.FIFOTYPE, "")).read())
        told = (0, b"ok 0 files 0 bytes\n", "pansuyog: pipe: it is neither a file, a folder nor a link, so it is left out\n")
        self.assertEqual(self.command("import", *words, self.image, archive), told)


class BesideTheProgram(OnAVolume):
    def setUp(self):
        if shutil.which(program) is None:
            self.skipTest(f"for want of the program {program}")
        super().setUp()

    def test_the_program_exports_what_the_client_put(self):
        with tempfile.TemporaryDirectory() as folder:
            out = f"{folder}/out"
            os.makedirs(f"{folder}/put/d/e")
            for number, size in enumerate((0, 1, 511, 512, 65_536, 65_537, 131_072)):
                put(f"{folder}/put/d/f {number}", random_bytes(size))
            os.symlink("d/e", f"{folder}/put/l")
            with self.mounted() as volume:
                files, size, _ = volume.write_tree(f"{folder}/put")
            ran = subprocess.run([program, "export", self.image, out], capture_output=True, text=True, check=False)
            self.assertEqual((ran.returncode, ran.stdout), (0, f"ok {files} files {size} bytes\n"))
            ran = subprocess.run(["diff", "-r", "--no-dereference", f"{folder}/put", out], capture_output=True, text=True, check=False)
            self.assertEqual((ran.returncode, ran.stdout), (0, ""))

    def test_the_largest_new_file_fits_and_no_larger(self):
        for number, size in enumerate((100, 57_344, 200_000, 65_000, 3)):
            self.put(f"/fill {number}", size, f"ok {size}\n")
            ran = subprocess.run([program, "df", self.image], capture_output=True, text=True, check=True)
            free = int(re.search(r"takes up to (\d+) bytes", ran.stdout).group(1))
            self.put("/new", free + 1, "err NoSpace\n")
            self.put("/new", free, f"ok {free}\n")
            self.put("/more", 1, "err NoSpace\n")
            subprocess.run([program, "rm", self.image, "/new"], check=True, capture_output=True)

    def put(self, path, size, reply):
        data = random_bytes(size).replace(b"\0", b"\1")
        ran = subprocess.run([program, "put", self.image, path], input=data, capture_output=True, check=False)
        self.assertEqual(ran.stdout, reply.encode())


class Page(OnAVolume):
    def test_what_readme_shows_can_be_run_twice(self):
        with open(f"{HERE}/../../README.md", encoding="utf-8") as file:
            shown = re.findall(r"^```python\n(from pansuyog .*?)^```", file.read(), re.M | re.S)
        self.assertEqual(len(shown), 1)
        code = used.shown(shown[0], self.image)
        for _ in range(2):
            exec(code, {})
        self.assertEqual(self.mounted().tree(), [pansuyog.TreeRow(1, b"notes", "file", 2, 1, 18, (b"a record\n" * 2)[:16])])


class Refusals(OnAVolume):
    def refused(self, kind, call, *arguments):
        """The text with which a call is refused."""
        with self.assertRaises(kind) as caught:
            call(*arguments)
        self.assertIs(type(caught.exception), kind)
        return str(caught.exception)

    def test_a_call_tells_itself_and_the_cause(self):
        volume = self.mounted()
        self.assertEqual(self.refused(pansuyog.NoEntry, volume.open, "/a/b"), "open /a/b: the volume has nothing of this name")
        self.assertEqual(self.refused(pansuyog.BadHandle, volume.pwrite, 7, 0, b"x" * 99)[:24], "pwrite 7 0 7878787878787")
        self.assertEqual(self.refused(pansuyog.Busy, volume.rename, "/", "/a b"), "rename / /a\\20b: the root can't be removed or renamed")

    def test_a_volume_that_is_not_made_tells_the_cause(self):
        image = f"{self.image}.2"
        text = self.refused(pansuyog.Inval, used.make, image, 65)
        self.assertEqual(text, f"{image}: a volume has 64 to 1024 segments, a multiple of 8")
        self.assertFalse(os.path.exists(image))

    def test_a_name_that_is_taken_is_refused(self):
        for data in (b"", b"a letter", bytes(3_000_000)):
            put(self.image, data)
            text = self.refused(pansuyog.Image, used.make, self.image, 64)
            self.assertEqual(text, f"{self.image}: it is there already; make(.., force=True) makes a volume in its place")
            with open(self.image, "rb") as file:
                self.assertEqual(file.read(), data)
        used.make(self.image, 64, force=True)
        self.assertEqual(self.names(self.mounted()), [])
        self.assertIn("it is in use", self.refused(pansuyog.Image, lambda: used.make(self.image, 64, force=True)))
        self.assertEqual(os.listdir(os.path.dirname(self.image)), ["disk.img"])

    def test_an_image_may_have_its_room_from_the_beginning(self):
        image = f"{self.image}.2"
        used.make(image, 64)
        self.assertLess(512 * os.stat(image).st_blocks, 1_000_000)
        for force in (False, True):
            used.make(f"{image}.{force}", 64, reserve=True)
            used.make(image, 64, reserve=True, force=True)
            for path in (f"{image}.{force}", image):
                self.assertGreaterEqual(512 * os.stat(path).st_blocks, 2_098_176)
                self.assertEqual(os.path.getsize(path), 2_098_176)
                used.mounted(path).close()

    def test_a_volume_that_is_not_mounted_tells_the_cause(self):
        missing = f"{self.image}.none"
        self.assertEqual(self.refused(pansuyog.Image, used.mounted, missing), f"{missing}: there is no such file or folder")
        os.truncate(self.image, 512)
        self.assertTrue(self.refused(pansuyog.TooSmall, used.mounted, self.image).startswith(f"{self.image}: "))

    def test_a_second_volume_of_an_image_is_refused(self):
        self.mounted()
        self.assertIn("it is in use", self.refused(pansuyog.Image, used.mounted, self.image))

    def test_a_program_that_is_not_there_is_told(self):
        text = self.refused(FileNotFoundError, pansuyog.ProcessVolume, self.image, "no-such-lfs")
        self.assertEqual(text, 'the program no-such-lfs isn\'t in PATH; pass ProcessVolume(image, lfs="../lfs")')
        self.assertIn("isn't there", self.refused(FileNotFoundError, pansuyog.make, f"{self.image}.2", 64, f"{HERE}/no-such-lfs"))
        self.assertFalse(os.path.exists(f"{self.image}.2"))

    def test_a_library_that_is_not_there_is_told(self):
        text = self.refused(FileNotFoundError, lambda: pansuyog.Volume(self.image, library="/no/such.so"))
        self.assertTrue(text.startswith("the library /no/such.so isn't there: ./library builds it"))
        self.assertRaises(TypeError, pansuyog.Volume, self.image, "/no/such.so")

    def test_a_misspelt_refusal_is_no_name(self):
        self.assertFalse(hasattr(pansuyog, "NoEntri"))
        self.assertIn("NoEntry", pansuyog.__all__)

    def test_texts_are_those_of_the_program(self):
        with open(f"{HERE}/../../crates/lfs_host/src/reason.rt", encoding="utf-8") as file:
            source = file.read()
        constants = dict(re.findall(r'const (\w+): &str =\s*"(.*)";', source))

        def texts_of(kind):
            texts = re.findall(kind + r'::(\w+) => \{?\s*(?:"(.*)"|(\w+))', source)
            return {name: text or constants.get(constant) for name, text, constant in texts}

        self.assertEqual(pansuyog._CALL_TEXTS, texts_of("FsError"))
        texts = {**texts_of("MountFault"), "Inval": texts_of("FormatFault")["Inval"]}
        self.assertEqual(pansuyog._VOLUME_TEXTS, {name: text for name, text in texts.items() if name in pansuyog._VOLUME_TEXTS})
        self.assertLessEqual(set(pansuyog._IMAGE_TEXTS.values()), set(texts_of("ImageFault").values()))


def changes_of(volume):
    """Each call that changes a volume with a directory, a file and a link."""
    handle = volume.open("/d/f")
    return [
        lambda: volume.create("/g"),
        lambda: volume.pwrite(handle, 0, b"x"),
        lambda: volume.fill(handle, 0, 1, 1),
        lambda: volume.truncate(handle, 0),
        lambda: volume.mkdir("/e"),
        lambda: volume.symlink("d", "/e"),
        lambda: volume.link("/d/f", "/e"),
        lambda: volume.unlink("/d/f"),
        lambda: volume.rmdir("/d"),
        lambda: volume.rename("/d", "/e"),
        volume.clean,
        volume.upgrade,
        lambda: volume.widen("/d"),
        lambda: volume.append("/d/f", b"x"),
        lambda: volume.append("/g", b"x"),
        lambda: volume.write_file("/d/f", b"x"),
        lambda: volume.write_tree(HERE),
    ]


class OnlyRead(OnAVolume):
    def setUp(self):
        super().setUp()
        with self.mounted() as volume:
            volume.mkdir("/d")
            volume.symlink("d/f", "/l")
            volume.write_file("/d/f", b"kept")
        os.chmod(self.image, 0o444)
        self.before = self.content()

    def content(self):
        with open(self.image, "rb") as file:
            return file.read()

    def test_all_is_read_and_nothing_changes(self):
        volume = self.mounted(read_only=True)
        self.assertEqual(volume.read("/l"), b"kept")
        self.assertEqual([path for path, _, _ in volume.walk()], [b"/", b"/d"])
        self.assertEqual([row.name for row in volume.tree()], [b"d", b"l", b"f"])
        for change in changes_of(volume):
            with self.assertRaisesRegex(pansuyog.ReadOnly, ": the volume was opened to be read alone$"):
                change()
        volume.sync()
        volume.fsync(0)
        self.assertRaises(pansuyog.BadHandle, volume.fsync, 63)
        self.assertEqual(volume.read("/d/f"), b"kept")
        volume.close()
        self.assertEqual(self.content(), self.before)

    def test_those_that_look_keep_a_writer_out_and_not_one_another(self):
        first, second = self.mounted(read_only=True), self.mounted(read_only=True)
        self.assertRaisesRegex(pansuyog.Image, "it is in use", used.mounted, self.image)
        first.close()
        self.assertRaisesRegex(pansuyog.Image, "it is in use", used.mounted, self.image)
        second.close()
        with self.mounted():
            self.assertRaisesRegex(pansuyog.Image, "it is in use", self.mounted, read_only=True)

    def test_a_file_system_may_have_nothing_to_sync(self):
        with mock.patch("os.fsync", side_effect=OSError(22, "Invalid argument")):
            self.assertEqual(self.mounted(read_only=True).read("/l"), b"kept")
        with mock.patch("os.fsync", side_effect=OSError(5, "Input/output error")):
            with self.assertRaisesRegex(pansuyog.Device, f"^{self.image}: a sync of it failed: Input/output error$"):
                self.mounted(read_only=True)

    def test_what_is_no_volume_is_refused(self):
        self.assertRaisesRegex(pansuyog.Image, "no such file", used.mounted, f"{self.image}.none", read_only=True)
        os.chmod(self.image, 0o644)
        put(self.image, bytes(3_000_000))
        with self.assertRaisesRegex(pansuyog.NoCheckpoint, f"^{self.image}: "):
            self.mounted(read_only=True)
        os.truncate(self.image, 512)
        with self.assertRaisesRegex(pansuyog.TooSmall, f"^{self.image}: "):
            self.mounted(read_only=True)
        # Nobody holds the lock any more.
        used.make(self.image, 64, force=True)


class Child(OnAVolume):
    def test_a_child_that_dies_is_told(self):
        volume = self.mounted()
        volume._child.kill()
        with self.assertRaisesRegex(pansuyog.ChildDied, "^sync: lfs run ended with status -9"):
            volume.sync()

    def scripted(self, text):
        """A volume over another program, a script."""
        path = f"{self.image}.lfs"
        put(path, f"#!/bin/sh\n{text}".encode())
        os.chmod(path, 0o755)
        volume = pansuyog.ProcessVolume(self.image, path)
        self.addCleanup(volume.close)
        return volume

    def test_a_halted_volume_tells_what_the_program_says(self):
        halted = "while read word rest; do case $word in space) echo ok 0 1 727 3008;; *) echo err Halted;; esac; done\n"
        unsaved = f"echo 'lfs: {self.image}: what was done since the last `sync` isn'\"'\"'t saved; end the script with the line sync' >&2\n"
        volume = self.scripted(halted + f"echo 'lfs: a write of {self.image} failed: No space left on device' >&2\n{unsaved}")
        for call, line in ((volume.sync, "sync"), (volume.clean, "clean"), (lambda: volume.create("/f"), "create /f")):
            with self.assertRaises(pansuyog.Halted) as caught:
                call()
            self.assertEqual(str(caught.exception), f"{line}: it can't be written: a write of {self.image} failed: No space left on device")
            self.assertTrue(caught.exception.needs_restart)
        volume = self.scripted(halted + unsaved)
        self.assertRaisesRegex(pansuyog.Halted, "^sync: it can't be written: a read, a write or a sync of it failed$", volume.sync)

    def test_a_call_that_is_interrupted_ends_the_child(self):
        volume = self.mounted()
        volume.write_file("/f", b"kept")
        with mock.patch.object(volume, "_row", side_effect=KeyboardInterrupt):
            self.assertRaises(KeyboardInterrupt, volume.write_file, "/f", b"new")
        self.assertIsNotNone(volume._child.returncode)
        self.assertRaises(ValueError, volume.stat, "/f")
        self.assertEqual(self.mounted().read("/f"), b"kept")

    def test_a_copy_to_read_has_no_name(self):
        with tempfile.TemporaryDirectory() as folder, mock.patch("tempfile.tempdir", folder):
            volume = self.mounted(read_only=True)
            self.assertEqual(os.listdir(folder), [])
            self.assertEqual(volume.readdir("/"), [])
            volume.close()
            os.truncate(self.image, 512)
            self.assertRaises(pansuyog.TooSmall, self.mounted, read_only=True)
            self.assertEqual(os.listdir(folder), [])

    def test_an_image_that_cannot_be_copied_is_told(self):
        with mock.patch("os.pread", side_effect=OSError(5, "Input/output error")):
            with self.assertRaisesRegex(pansuyog.Device, f"^{self.image}: a read of it failed: Input/output error$"):
                self.mounted(read_only=True)
        with mock.patch("os.pwrite", side_effect=OSError(28, "No space left on device")):
            with self.assertRaisesRegex(OSError, f"a copy of {self.image} can't be written: No space left on device"):
                self.mounted(read_only=True)
        self.mounted().close()

    def test_a_line_that_the_program_does_not_know_is_told(self):
        with self.assertRaisesRegex(pansuyog.BadLine, "^frob: line 2: no command has the word 'frob'"):
            self.mounted()._call("frob")


# Runs the tests of both files over the program, but for the recorder's, as where Python has no ctypes.
BARE = """
import sys, unittest
sys.modules["ctypes"] = None
import test_pansuyog, test_library
test_pansuyog.program = sys.argv.pop(1)
test_pansuyog.used = test_pansuyog.Program(test_pansuyog.program)
load = unittest.defaultTestLoader
suite = unittest.TestSuite([load.loadTestsFromModule(test_library), load.loadTestsFromTestCase(test_pansuyog.Child)])
sys.exit(not unittest.TextTestRunner(sys.stderr).run(suite).wasSuccessful())
"""


class WithoutCtypes(unittest.TestCase):
    def test_the_program_needs_none(self):
        ran = subprocess.run([sys.executable, "-W", "error::ResourceWarning", "-c", BARE, program], cwd=HERE, stderr=subprocess.PIPE, text=True, check=False)
        self.assertEqual(ran.returncode, 0, ran.stderr)
        self.assertGreater(int(re.search(r"Ran (\d+) tests", ran.stderr).group(1)), 50)

    def test_the_library_does(self):
        code = "import sys; sys.modules['ctypes'] = None; import pansuyog; pansuyog.Volume('disk.img', library='/dev/null')"
        ran = subprocess.run([sys.executable, "-c", code], cwd=HERE, stderr=subprocess.PIPE, text=True, check=False)
        self.assertRegex(ran.stderr, "ModuleNotFoundError: .*ctypes")


class Recorder(unittest.TestCase):
    def test_every_acknowledged_record_is_there_after_each_kill(self):
        for _ in range(VOLUMES):
            with tempfile.TemporaryDirectory() as folder:
                image = os.path.join(folder, "disk.img")
                used.make(image, 1024)
                acknowledged = 0
                for _ in range(KILLS):
                    acknowledged = self.killed(image, acknowledged, 10)
                self.assertGreaterEqual(acknowledged, 10 * KILLS)

    def killed(self, image, acknowledged, each, lines=1):
        """Lets a recorder acknowledge records so many times, kills it a few milliseconds later, and looks: how many were acknowledged by then."""
        child = subprocess.Popen([*self.recorder(image), "append", str(each)], stdout=subprocess.PIPE, text=True, start_new_session=True)
        said = "".join(child.stdout.readline() for _ in range(lines))
        time.sleep(random.uniform(0, 0.02))
        os.killpg(child.pid, signal.SIGKILL)
        # the last line may be cut off
        whole = (said + child.communicate()[0]).split("\n")[:-1]
        acknowledged = max([acknowledged, *map(int, whole)])
        self.assertGreaterEqual(self.counted(image), acknowledged)
        return acknowledged

    def recorder(self, image):
        return [sys.executable, os.path.join(HERE, "recorder.py"), used.name, used.path, image]

    def counted(self, image):
        """The records that a mount finds. A program that was killed may hold the lock of the image a moment longer than its parent lives."""
        for _ in range(100):
            found = subprocess.run([*self.recorder(image), "count"], capture_output=True, text=True, check=False)
            if "pansuyog.Image" not in found.stderr:
                break
            time.sleep(0.05)
        self.assertEqual(found.returncode, 0, found.stderr)
        return int(found.stdout)


if __name__ == "__main__":
    if len(sys.argv) > 1:
        program = os.path.abspath(sys.argv.pop(1))
        used = Program(program)
    unittest.main()
