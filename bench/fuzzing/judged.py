"""Runs that bench/fuzzing/library.c told of, compared with what is known without the program.

bench/format_checker.py says what `check` prints of the image before a run and of the one that the run and a stop left. Where the first is
a volume, bench/model.py says what each line of the script answers, and behind which lines a mount may find the tree: each state from that of
the last `sync` or `fsync` that was Ok on. A call that failed or was refused memory may answer so, once for each, and only where that was so.

Where a new volume was made, an Ok leaves it, and a stop or a failed call that one, no checkpoint, or what was there but for the sectors at
which slots may stand.
"""
import functools
import struct
from collections.abc import Iterator, Sequence
from typing import BinaryIO, NamedTuple

import format_checker
import model
from fuzzing import lines as spelling
from fuzzing.volumes import SEGMENTS, Difference, Patched, Volumes, checked, expect, state_of
from served import SECTOR

# As `struct told` of the harness.
HEAD = struct.Struct("=19I")
PLACE = struct.Struct("=I")
# Replies from this length on may be cut.
MOST_SAID = 1 << 22
# The checkpoint's number from which nothing can be changed, and how many commits a run makes at most.
WORN, COMMITS = 2**62, 10_000
# What `Worn` stands in the place of, and what never answers as if a read had failed, or memory had been refused.
CHANGING = set("create mkdir link symlink unlink rmdir rename pwrite fill truncate upgrade widen clean".split())
NEVER_DEVICE = {"fsync", "sync", "version"}
NEVER_NO_MEMORY = {"close", "fsync", "sync", "space", "version"}
# The calls of which a script spells bytes. Where memory for these is refused no call is made, so that it is told on a halted volume too.
WITH_BYTES = set("create open mkdir rmdir readlink unlink readdir stat lstat widen pwrite link rename symlink".split())
SAVING = ("sync", "fsync")
# The sectors at which slots may stand, and how many units a new volume may have.
SLOTS, UNITS = {0, 1, format_checker.SECOND_SLOT}, 1 + format_checker.MOST_UNIT_POWER
Changes = tuple[tuple[int, bytes], ...]


class Faults(NamedTuple):
    """How many allocations, reads, writes and syncs failed in a run."""

    refused: int
    reads: int
    writes: int
    syncs: int


class Told(NamedTuple):
    """A run: its input, what `check` answered before it, its script and replies, what `check` answers then, and both images by their changes.
    The version is that of the new volume, 0 where none was made."""

    base: int
    size: int
    version: int
    unit: int
    how: int
    faults: Faults
    input: bytes
    before: str
    script: bytes
    status: int
    said: str
    after: str
    patched: Changes
    left: Changes

    def spelt(self) -> str:
        changes = ", ".join(f"{at}" for at, _ in self.patched)
        rows = [f"input: {self.input!r}", f"the image {self.base} with other sectors {changes or '-'}, device units of {self.unit}"]
        rows += [f"a new volume of version {self.version}"] * (self.version > 0)
        return "\n  ".join([*rows, f"{self.faults}, kind of stop {self.how}", *self.script.decode(errors="backslashreplace").splitlines()])


def read_told(file: BinaryIO) -> Told | None:
    """The next run, or None where the harness ended."""
    head = file.read(HEAD.size)
    if len(head) < HEAD.size:
        return None
    base, size, version, unit, how, was, status, left, *rest = HEAD.unpack(head)
    faults, lengths, counts = Faults(*rest[:4]), rest[4:9], rest[9:]
    texts = [file.read(length) for length in lengths]
    patched, changes = (tuple(read_sectors(file, count)) for count in counts)
    if len(texts[-1]) < lengths[-1] or len(changes) < counts[-1]:
        return None
    given, line, script, said, after = texts
    answers = answer(was, line), script, status, said.decode("latin-1"), answer(left, after)
    return Told(base, size, version, unit, how, faults, given, *answers, patched, changes)


def read_sectors(file: BinaryIO, count: int) -> Iterator[tuple[int, bytes]]:
    for _ in range(count):
        text = file.read(PLACE.size + SECTOR)
        if len(text) == PLACE.size + SECTOR:
            yield PLACE.unpack_from(text)[0], text[PLACE.size :]


def answer(status: int, line: bytes) -> str:
    return f"{status} {line.decode('latin-1')}"


def wanted_of(line: str) -> str:
    """What `check` answers where the plain checker says that line."""
    return f"{int(line.startswith('err'))} {line}"


class Judge:
    """Compares runs over the images of the harness."""

    def __init__(self, volumes: Volumes):
        self.volumes = volumes
        self.found = functools.lru_cache(maxsize=64)(self.found)
        self.count = self.well = self.stopped = self.made = 0

    def found(self, base: int, size: int, changes: Changes) -> tuple[str, format_checker.Volume | None, model.State | None]:
        """What `check` has to print of an image of so many sectors, its volume, and the model's state of that."""
        line, volume = checked(Patched(self.volumes.base(base).image.ljust(SECTOR * size, b"\0"), dict(changes).get))
        return line, volume, state_of(volume) if volume else None

    def look(self, run: Told) -> None:
        self.count += 1
        line, volume, state = self.found(run.base, run.size, run.patched)
        expect("check", wanted_of(line), run.before)
        if run.version:
            self.look_at_new(run)
            return
        if volume is None or state is None:
            look_at_refused(run, line)
            return
        self.well += 1
        states = Followed(run, state, volume.checkpoint.number).states
        line, _, left = self.found(run.base, run.size, run.left)
        expect("check behind a stop", wanted_of(line), run.after)
        if left not in map(model.dropped, states):
            raise Difference(f"what a stop left has the tree of no line behind the last sync, of {len(states)} states\nfound:  {line}")
        self.stopped += "err Halted" in run.said

    def look_at_new(self, run: Told) -> None:
        """A new volume is there, or else what was there but for the slots, or no checkpoint."""
        self.made += 1
        line, volume, state = self.found(run.base, run.size, run.left)
        expect("check behind a stop", wanted_of(line), run.after)
        unit = 1 << run.script[0] % UNITS if run.version == format_checker.SUMMED_VERSION and run.script else 1
        is_new = volume is not None and volume.checkpoint.unit == unit and state == model.new(SEGMENTS, run.version)
        failed = run.faults.reads + run.faults.writes + run.faults.syncs
        if run.said == "ok\n":
            is_well = run.status == 0 and is_new and not failed
        else:
            told = ["err Device\n"] * (failed > 0) + ["err NoMemory\n", ""] * (run.faults.refused > 0)
            others = {at for at, _ in set(run.left) ^ set(run.patched)}
            is_well = run.status == 1 and run.said in told and (is_new or line == "err NoCheckpoint\n" or others <= SLOTS)
        if not is_well:
            raise Difference(f"a new volume of version {run.version}: {run.status} {run.said}\nfound:  {line}")


def look_at_refused(run: Told, line: str) -> None:
    """A run on an image that isn't mounted says why, and changes nothing."""
    told = [line] + ["err NoMemory\n"] * (run.faults.refused > 0) + ["err Device\n"] * (run.faults.reads + run.faults.syncs > 0)
    if run.said not in told and not (run.said == "" and run.faults.refused):
        raise Difference(f"run of an image that isn't mounted\nwanted: {told}\nfound:  {run.status} {run.said}")
    if run.status != 1 or run.left != run.patched or run.after != run.before:
        raise Difference(f"run of an image that isn't mounted: status {run.status}, and behind it {run.after}")


class Followed:
    """The replies of a run line by line: the states in which a mount may find the volume behind it."""

    def __init__(self, run: Told, state: model.State, number: int):
        self.run, self.state, self.states = run, state, [state]
        self.lines, self.at = run.said.splitlines(), 0
        self.may_be_worn, self.is_worn = number + COMMITS >= WORN, number >= WORN
        self.left = run.faults
        self.is_halted = False
        if not self.ended_early():
            self.follow()

    def ended_early(self) -> bool:
        """Whether the mount failed, or the run before it."""
        faults, said = self.run.faults, self.run.said
        is_memory = faults.refused and self.run.status == 1 and said in ("", "err NoMemory\n")
        is_device = faults.reads + faults.syncs and self.run.status == 1 and said == "err Device\n"
        return bool(is_memory or is_device)

    def follow(self) -> None:
        script = self.run.script.split(b"\n")
        for line in script[:-1] if script[-1] == b"" else script:
            if not spelling.is_line(line):
                return self.end(2, f"bad {1 + script.index(line)}")
            if self.is_cut():
                return None
            self.step(line.decode())
        return self.end(0)

    def is_cut(self) -> bool:
        return len(self.run.said) + 1 >= MOST_SAID

    def end(self, status: int, line: str | None = None) -> None:
        if not self.is_cut():
            expect("the end of the run", f"{status} {[line] if line else []}", f"{self.run.status} {self.lines[self.at :]}")
        failed = self.run.faults.writes + self.run.faults.syncs
        if failed and not self.is_halted:
            raise Difference(f"no reply tells that a call failed: {self.run.faults}")

    def step(self, line: str) -> None:
        word = line.split(" ", 1)[0]
        wanted, after = model.step(self.state, line)
        if self.is_worn and word in CHANGING and wanted[0].startswith("ok"):
            wanted, after = ["err Worn"], self.state
        found = self.lines[self.at : self.at + 1]
        if self.is_halted:
            self.at += 1
            if not self.is_unread(found, word):
                expect(line, "['err Halted']", f"{found}")
        elif found and self.is_excused(found[0], word, wanted):
            self.at += 1
            self.states += [after] * self.is_halted
        else:
            found = self.lines[self.at : self.at + len(wanted)]
            self.at += len(wanted)
            self.compare(line, wanted, found)
            self.take(word, wanted, after)

    def compare(self, line: str, wanted: Sequence[str], found: Sequence[str]) -> None:
        if wanted != found and not self.is_cut():
            expect(line, "\n".join(wanted), "\n".join(found))

    def take(self, word: str, wanted: Sequence[str], after: model.State) -> None:
        self.state = after
        if word in SAVING and wanted == ["ok"]:
            self.states.clear()
        self.states.append(after)

    def is_unread(self, found: Sequence[str], word: str) -> bool:
        """Whether memory for a path or for bytes of a line was refused."""
        if list(found) != ["err NoMemory"] or not self.left.refused or word not in WITH_BYTES:
            return False
        self.left = self.left._replace(refused=self.left.refused - 1)
        return True

    def is_excused(self, reply: str, word: str, wanted: Sequence[str]) -> bool:
        """Whether a reply that the tree alone wouldn't give has its cause: each failure counts once."""
        if reply == "err Halted" and self.left.writes + self.left.syncs:
            self.is_halted = True
        elif reply == "err Device" and self.left.reads and word not in NEVER_DEVICE:
            self.left = self.left._replace(reads=self.left.reads - 1)
        elif reply == "err NoMemory" and self.left.refused and word not in NEVER_NO_MEMORY:
            self.left = self.left._replace(refused=self.left.refused - 1)
        else:
            return reply == "err Worn" and self.may_be_worn and word in CHANGING and wanted[0].startswith("ok")
        return True
