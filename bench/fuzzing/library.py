"""Inputs that LLVM's libFuzzer finds by coverage for the program's module, and what plain judges say of their runs.

The module is that of `rt try`, with its checks kept as traps: where one is false, the run ends. bench/fuzzing/library.c stands in the place
of the system, with an image in memory, calls that fail and stop, and memory that is refused. There it is looked at that a volume which
`check` finds well is well after each stop.

bench/fuzzing/judged.py compares replies and what is left. It takes longer than a run: so while libFuzzer looks for inputs it is told of a
run whenever it is free. All inputs that libFuzzer began with, and those that it found new and kept, are judged one by one.
"""
import contextlib
import glob
import importlib.machinery
import importlib.util
import itertools
import os
import re
import struct
import subprocess
import tempfile

import command_line
import random_scripts
from fuzzing import lines as spelling
from fuzzing.judged import Judge, read_told
from fuzzing.volumes import KINDS, Difference, Volumes

FOLDER = os.path.dirname(os.path.realpath(__file__))
# What the module asks of the system, and bench/fuzzing/library.c has.
ASKED = "arg arg_count alloc realloc dealloc errno set_errno".split()
CALLED = "open fcntl close read write lseek pread pwrite fsync fdatasync flock ftruncate statx".split()
OUTSIDE = re.compile(rf"@(?:rattle_({'|'.join(ASKED)})|({'|'.join(CALLED)}))\(")
FUNCTION = re.compile(r"^(COVERED|UNCOVERED)_FUNC: hits: \d+ edges: \S+ ([\w:]+?)(?:::<#\w+>)? ", re.MULTILINE)
MOST_LENGTH, MOST_SCRIPT, AT_ONCE, SECONDS_OF_RUN = 2_048, 1_800, 256, 30
CHANGES = b"create /A\nfill 0 0 9000 7\nsync\nunlink /A\nclose 0\nsync\nclean\ncreate /B\nfill 0 9 700 8\nfsync 0\ntree\nspace\n"
# Of the inputs that it begins with: which allocation, read, write and sync fails, within which write the device stops, and how often the
# volume's unit is halved to give the device's.
FAILS = {"none": ((0, 0, 0, 0, 0), 0), "stop": ((0, 0, 0, 0, 5), 0), "stop of half a unit": ((0, 0, 0, 0, 5), 1)}
FAILS |= {"stop of a sector": ((0, 0, 0, 0, 9), 6), "memory": ((40, 0, 0, 0, 0), 0), "read": ((0, 30, 0, 0, 0), 0)}
FAILS |= {"write": ((0, 0, 4, 0, 0), 0), "sync": ((0, 0, 0, 3, 0), 0)}


def has_libfuzzer():
    """Whether clang has libFuzzer's library, as Debian's package libclang-rt-dev brings it."""
    with tempfile.TemporaryDirectory() as room, contextlib.suppress(FileNotFoundError):
        source = "#include <stddef.h>\n#include <stdint.h>\nint LLVMFuzzerTestOneInput(const uint8_t *, size_t);\n"
        source += "int LLVMFuzzerTestOneInput(const uint8_t *from, size_t left) { return (void)from, (void)left, 0; }\n"
        words = ["clang", "-fsanitize=fuzzer", "-x", "c", "-", "-o", f"{room}/none"]
        return subprocess.run(words, input=source, text=True, capture_output=True, check=False).returncode == 0
    return False


def unproved():
    """What bench/unproved takes the module with."""
    loader = importlib.machinery.SourceFileLoader("unproved", f"{command_line.ROOT}/bench/unproved")
    module = importlib.util.module_from_spec(importlib.util.spec_from_loader("unproved", loader))
    loader.exec_module(module)
    return module


def renamed(line):
    """A line of the module, whose calls of the system are those of the harness."""
    line = OUTSIDE.sub(lambda found: f"@fuzz_{found[1] or found[2]}(", line)
    return line.replace("define i32 @main()", "define i32 @lfs_main()")


def build(out, root=command_line.ROOT):
    """Builds the module of a clone's `lfs` with libFuzzer. The kit's clang counts what is covered, and Debian's has the library."""
    tools = unproved()
    kit, crate = tools.kit(), f"{root}/crates/lfs"
    clang = f"{kit}/toolchain/bin/clang"
    with tempfile.TemporaryDirectory() as room, open(f"{room}/log", "w", encoding="utf-8") as log:
        module = tools.module_of(tools.command_of_try(crate, log), crate, f"{kit}/toolchain", room, log)
        plain, own, code = f"{room}/plain.ll", f"{room}/own.ll", f"{room}/code.o"
        words = [clang, *tools.TARGET, "-S", "-emit-llvm", "-Xclang", "-disable-llvm-passes", "-x", "ir", module, "-o", plain]
        subprocess.run(words, check=True)
        link(kit, plain, own, code, out)


def link(kit, plain, own, code, out):
    with open(plain, encoding="utf-8") as source, open(own, "w", encoding="utf-8") as target:
        target.writelines(map(renamed, source))
    # What is compared isn't traced: that took four fifths of a run.
    clang, counted = f"{kit}/toolchain/bin/clang", ["-O1", "-fPIE", "-fsanitize=fuzzer-no-link", "-fno-sanitize-coverage=trace-cmp"]
    subprocess.run([clang, *unproved().TARGET, *counted, "-c", "-x", "ir", own, "-o", code], check=True)
    harness = ["-std=c11", "-Wall", "-Wextra", "-Werror", "-O1", f"{FOLDER}/library.c"]
    last = [f"{kit}/c/libos_c.a", f"{kit}/c/liblibc_c.a", "-o", out]
    subprocess.run(["clang", "-fsanitize=fuzzer", *harness, "-x", "none", code, *last], check=True)


class Library:
    """Runs of libFuzzer in a folder, over images that the program made and forged ones."""

    def __init__(self, volumes: Volumes, folder: str, harness: str):
        self.harness, self.corpus = harness, f"{folder}/corpus"
        self.words, self.bases, self.log = f"{folder}/words", f"{folder}/bases", f"{folder}/said"
        self.artifacts = f"{folder}/found."
        self.judge = Judge(volumes)
        os.mkdir(self.corpus)
        with open(self.bases, "wb") as file:
            for at in range(len(KINDS)):
                image = volumes.base(at).image
                file.write(struct.pack("=I", len(image)) + image)
        with open(self.words, "w", encoding="ascii") as file:
            file.writelines(f'"{word.decode()} "\n' for word in spelling.COMMANDS)
            file.writelines(f'"{word}"\n' for word in ("/a", "/d/", " 0 0 ", " 512 7", "\\x0a", "fsync 0\\x0a", "sync\\x0a"))
        self.seed()

    def seed(self):
        """For each image four scripts, each with stops on devices of several units, and with each kind of call that fails once. On some of them
        a volume of each version is made, with a stop within each write."""
        for at, kind in enumerate(KINDS):
            texts = [b"tree\n", kind.script.encode()[-1_500:].partition(b"\n")[2], CHANGES, all_calls(at)]
            for (number, text), (name, (fails, halvings)) in itertools.product(enumerate(texts), FAILS.items()):
                with open(f"{self.corpus}/{at}.{number}.{name}", "wb") as file:
                    file.write(bytes([at]) + struct.pack("<5H", *fails) + bytes([number + 4 * halvings]) + b"\0" + text)
        for at, version, stop in itertools.product(range(0, len(KINDS), 5), (1, 2, 3), (0, 1, 2, 4, 5, 6)):
            with open(f"{self.corpus}/{at}.new of {version}.stop {stop}", "wb") as file:
                file.write(bytes([at]) + struct.pack("<5H", 0, 0, 0, 0, stop) + bytes([stop % 3 + 32 * (4 + version)]) + b"\0" + bytes([at]))

    def run(self, *words, is_each):
        """Runs the harness, and judges what it tells: each run, or those that it makes while the judge is free. Gives what libFuzzer said."""
        (told, to), (asks, ask) = os.pipe(), os.pipe()
        os.set_blocking(asks, is_each)
        environment = {**os.environ, "BASES": self.bases, "TOLD": str(to), "ASKED": str(asks)}
        words = [self.harness, *words, f"-artifact_prefix={self.artifacts}", "-detect_leaks=0", f"-timeout={SECONDS_OF_RUN}"]
        with open(self.log, "w+b") as log, os.fdopen(told, "rb") as told, os.fdopen(ask, "wb", buffering=0) as ask:
            with subprocess.Popen(words, env=environment, pass_fds=(to, asks), stdout=log, stderr=log) as ran:
                os.close(to)
                os.close(asks)
                try:
                    self.listen(told, ask)
                except BaseException:
                    ran.kill()
                    raise
            log.seek(0)
            said = log.read().decode(errors="replace")
        if ran.returncode:
            inputs = [bytes_of(path) for path in glob.glob(f"{self.artifacts}*")]
            raise Difference(f"libFuzzer ended with status {ran.returncode}\n{said[-2_000:]}\ninputs: {inputs}")
        return said

    def listen(self, told, ask):
        """Asks for runs and judges them, until the harness ends."""
        while True:
            with contextlib.suppress(BrokenPipeError):
                ask.write(b"g")
            ran = read_told(told)
            if ran is None:
                return
            try:
                self.judge.look(ran)
            except Difference as difference:
                raise Difference(f"{ran.spelt()}\n{difference}") from difference

    def inputs(self):
        return sorted(glob.glob(f"{self.corpus}/*"))

    def each(self, paths):
        """Judges these inputs one by one."""
        for at in range(0, len(paths), AT_ONCE):
            self.run(*paths[at : at + AT_ONCE], is_each=True)

    def fuzz(self, seconds, seed, runs=None):
        """How it went, in libFuzzer's words. A run that ended or differs is told with its input."""
        first = self.inputs()
        self.each(first)
        options = [f"-max_total_time={int(seconds)}", f"-seed={seed}", f"-max_len={MOST_LENGTH}", f"-dict={self.words}"]
        options += [f"-runs={runs}"] if runs else []
        said = self.run(self.corpus, *options, "-print_final_stats=1", is_each=False)
        self.each(sorted(set(self.inputs()) - set(first)))
        return said

    def functions(self):
        """The functions of the crates of a volume that the inputs reach, and all that the program has of these: instances of one count once."""
        said = self.run(self.corpus, "-runs=0", "-print_coverage=1", is_each=False)
        crates, reached, every = below("lfs_fs"), set(), set()
        for kind, name in FUNCTION.findall(said):
            if name.partition("::")[0] in crates:
                every.add(name)
                reached |= {name} if kind == "COVERED" else set()
        return reached, every


def all_calls(seed):
    """A script of any calls, and each file's bytes."""
    lines = random_scripts.lines(random_scripts.dice_of(seed), random_scripts.ALL_CALLS)
    text = "".join(f"{line}\n" for line in lines)[:MOST_SCRIPT].rpartition("\n")[0]
    return f"{text}\ntree\npread 0 0 900\npread 1 0 900\nspace\n".encode()


def below(crate):
    """A crate, and those that it stands on."""
    with open(f"{command_line.ROOT}/crates.txt", encoding="utf-8") as file:
        rows = dict(line.split("#")[0].split(":") for line in file if ":" in line.split("#")[0])
    found, left = set(), [crate]
    while left:
        name = left.pop()
        found.add(name)
        left += [it for it in rows.get(name, rows.get(f"{name} staticlib", "")).split() if it not in found]
    return found


def bytes_of(path):
    with open(path, "rb") as file:
        return file.read()
