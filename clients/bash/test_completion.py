"""Tests of the completion for bash: python3 test_completion.py LFS. Lines are typed at a shell on a terminal, and what they do is looked at."""
import os
import pty
import select
import subprocess
import sys
import tempfile
import time
import unittest

HERE = os.path.dirname(os.path.realpath(__file__))
program = "lfs"

# The names of the files in a volume. Each has its own name as its bytes.
NAMES = [
    "/notes", "/Messung 1/Überdruck.csv", "/Messung 1/Temperatur außen.csv", "/Messung 2/a", "/it's \"$x\" `y`", "/12:30=x.csv", "/tmp",
    "/back\\5cslash", "/\\ff\\fe byte", "/-dash", "/two\\0alines", "/deep/er/file",
]  # fmt: skip

# What is typed behind `lfs`, where a tab stands for itself, and what the line has to print.
LINES = [
    ("cat disk.img /no\t", "/notes"),
    ("cat disk.img no\t", "/notes"),
    ("cat --wait disk.img /no\t", "/notes"),
    ("cat ./disk.img /no\t", "/notes"),
    ("cat disk.img /Mes\t1\t\t", "err IsDir\n"),
    ("cat disk.img /Mes\t1/Ü\t", "/Messung 1/Überdruck.csv"),
    ("cat disk.img /Messung\\ 1/T\t", "/Messung 1/Temperatur außen.csv"),
    ("cat disk.img '/Messung 1/T\t", "/Messung 1/Temperatur außen.csv"),
    ("cat disk.img \"/Messung 1/T\t", "/Messung 1/Temperatur außen.csv"),
    ("cat disk.img /Messung\\ 2/\t", "/Messung 2/a"),
    ("cat disk.img /it\t", "/it's \"$x\" `y`"),
    ("cat disk.img \"/it's \t", "/it's \"$x\" `y`"),
    ("cat disk.img /12\t", "/12:30=x.csv"),
    ("cat disk.img /12:\t", "/12:30=x.csv"),
    ("cat disk.img /12:30=\t", "/12:30=x.csv"),
    ("cat disk.img /12:3\t", "/12:30=x.csv"),
    # The host has a folder of this name, and the volume a file.
    ("cat disk.img /tm\t", "/tmp"),
    ("cat disk.img /b\t", "/back\\5cslash"),
    ("cat disk.img /\\\\f\t", "/\\ff\\fe byte"),
    ("cat disk.img /two\t", "/two\\0alines"),
    ("cat disk.img /-\t", "/-dash"),
    ("cat disk.img /de\t\t\t", "/deep/er/file"),
    ("cat 'disk image' /no\t", "/notes"),
    ("cat disk\\ image /no\t", "/notes"),
    # No file of the host stands in for a path of the volume.
    ("cat disk.img hos\t", "err NoEntry\n"),
    ("cat none.img /no\t", "err Image\n"),
    # The third word of put is one of the host.
    ("put disk.img /new hos\t", "ok 11\n"),
    ("rm disk.img /ne\t", "ok\n"),
    # So are those of a put with -t, and with -r all but the last one.
    ("put -t /deep disk.img hos\t", "ok 1 files 11 bytes\n"),
    ("cat disk.img /no\t/deep/h\t", "/notesof the host"),
    ("put -r disk.img fol\t /de\t", "ok 1 files 3 bytes\n"),
    ("rm -r disk.img /deep/in\t/deep/h\t", "ok\n"),
]


def spelt(name):
    """A path as a word that the program takes."""
    return name.replace(" ", "\\20") if "\\" in name else name


class Completion(unittest.TestCase):
    def setUp(self):
        room = tempfile.TemporaryDirectory()
        self.addCleanup(room.cleanup)
        self.room = room.name
        self.lfs("mkfs", "disk.img", "--size", "2M")
        for directory in ("/Messung 1", "/Messung 2", "/deep", "/deep/er"):
            self.lfs("mkdir", "disk.img", directory)
        for name in NAMES:
            self.lfs("put", "disk.img", spelt(name), "-", input=name.encode())
        os.link(f"{self.room}/disk.img", f"{self.room}/disk image")
        os.makedirs(f"{self.room}/bin")
        os.symlink(program, f"{self.room}/bin/lfs")
        os.mkdir(f"{self.room}/folder")
        with open(f"{self.room}/folder/inner", "w", encoding="utf-8") as file:
            file.write("one")
        for name in ("host file", "notes of the host"):
            with open(f"{self.room}/{name}", "w", encoding="utf-8") as file:
                file.write("of the host")

    def lfs(self, *words, **how):
        subprocess.run([program, *words], cwd=self.room, check=True, stdout=subprocess.DEVNULL, **how)

    def typed(self, line):
        """What a line prints that is typed behind `lfs` at a shell."""
        child, terminal = pty.fork()
        if child == 0:
            os.chdir(self.room)
            env = {**os.environ, "PATH": f"{self.room}/bin:{os.environ['PATH']}", "LC_ALL": "C.UTF-8", "TERM": "dumb", "INPUTRC": "/dev/null"}
            os.execvpe("bash", ["bash", "--norc", "--noprofile", "-i"], env)
        try:
            self.say(terminal, f"source '{HERE}/lfs'; PS1='ready> '\n", b"ready> ")
            # The line is done once its mark is printed, whose letters aren't those that are typed.
            self.say(terminal, f"lfs {line}", None)
            self.say(terminal, f" >printed 2>/dev/null; printf 'do%s\\n' ne\n", b"done\r\n")
        finally:
            os.close(terminal)
            os.waitpid(child, 0)
        with open(f"{self.room}/printed", encoding="utf-8") as file:
            return file.read()

    def say(self, terminal, text, mark):
        """Types a text, with some time behind each tab, and waits until a mark is printed."""
        for part in text.replace("\t", "\t\0").split("\0"):
            os.write(terminal, part.encode())
            if part.endswith("\t"):
                self.heard(terminal, 0.4)
        said, end = b"", time.monotonic() + 20
        while mark and mark not in said:
            self.assertLess(time.monotonic(), end, said)
            said += os.read(terminal, 4096)

    @staticmethod
    def heard(terminal, seconds):
        """Waits, and lets the shell print meanwhile."""
        end = time.monotonic() + seconds
        while (left := end - time.monotonic()) > 0:
            if select.select([terminal], [], [], left)[0]:
                os.read(terminal, 4096)

    def test_paths_in_the_volume_are_completed(self):
        for line, wanted in LINES:
            with self.subTest(line=line):
                self.assertEqual(self.typed(line), wanted)


if __name__ == "__main__":
    if len(sys.argv) > 1:
        program = os.path.abspath(sys.argv.pop(1))
    unittest.main()
