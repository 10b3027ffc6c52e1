"""The volumes that bench/fuzz changes, and what is known of an image without the program."""
import contextlib
import functools
import subprocess
from collections.abc import Callable
from typing import NamedTuple

import format_checker
import model
import new_volume
from fuzzing import forged as forging
from fuzzing.lines import replies
from served import SECTOR, Served, Stop

SEGMENTS = 64
# What scripts make of a new volume. In the order of their lines: names of each kind, links to links, files with blocks of pointers,
# directories of both forms, files that went, a volume without space, and a directory that takes two more names.
LONG = "n" * 59
SMALL = f"""mkdir /d
mkdir /d/e
create /d/f
pwrite 0 0 68656c6c6f
create /g
pwrite 1 500 0102030405060708090a0b0c0d0e0f1011
sync
link /d/f /h
symlink d/e /s
symlink /d/f/ /t
symlink {"x/" * 300} /u
create /{LONG}
fill 2 0 3000 7
sync
"""
CHAIN = "".join(f"symlink {at + 1} /{at}\n" for at in range(42)) + "create /42\nmkdir /v\nsymlink ../v /v/w\nsync\n"
LEAVES = """create /f
pwrite 0 0 61
pwrite 0 57344 62
pwrite 0 122368 63
pwrite 0 122880 64
pwrite 0 188416 65
pwrite 0 1000000 66
create /g
fill 1 50000 65536 3
sync
create /h
fill 2 0 20000 9
sync
"""
MIXED = f"""mkdir /o
create /o/a
mkdir /o/p
sync
upgrade
mkdir /n
create /n/{"m" * 123}
mkdir /n/q
widen /o
create /o/{"k" * 100}
sync
"""
GONE = "".join(f"create /{at}\npwrite 0 0 {at:02}\nclose 0\nsync\n" for at in range(60))
GONE += "".join(f"unlink /{at}\n" for at in range(0, 60, 2)) + "sync\n"
FULL = "create /f\n" + "".join(f"fill 0 {65_536 * at} 65536 {at + 1}\n" for at in range(16)) + "fill 0 1048576 48000 17\nsync\n"
# The need is the limit: 2,154 blocks, an inode, a single leaf, a double root and 15 leaves, and one block and an inode of the root.
LIMIT = "create /f\n" + "".join(f"fill 0 {65_536 * at} 65536 {at + 1}\n" for at in range(16)) + "fill 0 1048576 54272 17\nsync\n"
# Every kind of object, and more blocks than there are segments.
ALL = SMALL + "create /h1\nfill 3 0 9000 1\nfill 3 57344 3000 2\nfill 3 122880 512 3\nfill 3 188416 512 4\nfill 3 1000000 488 5\n"
ALL += "".join(f"mkdir /d/e/{at}\ncreate /d/e/{at}/f\nfill {4 + at} 0 {600 * at + 1} {at + 1}\n" for at in range(8)) + "sync\n"
WIDE = "mkdir /d\ncreate /f\ncreate /g\n" + "".join(f"link /f /d/f{at}\n" for at in range(997))
WIDE += "".join(f"link /g /d/g{at}\n" for at in range(25)) + "sync\n"


class Kind(NamedTuple):
    """Of what kind a volume is, and what a script makes of it."""

    name: str
    version: int
    script: str
    # How often scripts take it, and whether it is changed as an image.
    weight: int
    of_images: bool = True
    # How many sectors a unit of it has.
    unit: int = 1
    # How its image is forged, where the program doesn't make it.
    layout: forging.Layout | None = None


LEVEL, UNEVEN = forging.Layout(True), forging.Layout(False)
KINDS = [
    Kind("small", 1, SMALL, 12),
    Kind("mixed", 1, MIXED, 8),
    Kind("new", 1, "", 4),
    Kind("new of version 2", 2, "", 2),
    Kind("leaves", 1, LEAVES, 4),
    Kind("small of version 2", 2, SMALL, 3),
    Kind("chain", 1, CHAIN, 3, False),
    Kind("full", 1, FULL, 2, False),
    Kind("gone", 1, GONE, 1),
    Kind("wide", 2, WIDE, 1, False),
    Kind("new of version 3", 3, "", 2),
    Kind("small of version 3", 3, SMALL, 4, unit=8),
    Kind("leaves of version 3", 3, LEAVES, 2, unit=8),
    Kind("gone of version 3", 3, GONE, 1, unit=64),
    Kind("at its limit, level", 1, LIMIT, 1, False, layout=LEVEL),
    Kind("at its limit, uneven", 2, LIMIT, 1, False, layout=UNEVEN),
    Kind("at its limit, of version 3", 3, LIMIT, 1, False, unit=8, layout=UNEVEN),
    Kind("dead blocks everywhere", 1, ALL, 2, layout=LEVEL),
    Kind("dead blocks everywhere, of version 2", 2, ALL, 1, False, layout=UNEVEN),
    Kind("dead blocks everywhere, of version 3", 3, ALL, 2, layout=LEVEL),
    Kind("dead blocks everywhere, of units of 64", 3, ALL, 1, False, unit=64, layout=LEVEL),
]


class Base(NamedTuple):
    """An image that the program made, and what the model has behind the same script and a mount."""

    image: bytes
    state: model.State


class Volumes:
    """The images that are changed or run on, and the commands that stand ready on each. Each is made once it is needed."""

    def __init__(self, program: str, folder: str, stack: contextlib.ExitStack):
        self.program, self.folder, self.stack = program, folder, stack
        self.base = functools.cache(self.base)
        self.served = functools.cache(self.served)

    def base(self, at: int) -> Base:
        return make_base(self.program, self.folder, KINDS[at])

    def served(self, at: int, word: str, stop: Stop = Stop.IMAGE) -> Served:
        return self.stack.enter_context(Served(self.program, self.folder, [word], self.base(at).image, stop))

    def sector(self, at: int, sector: int) -> bytes:
        return self.base(at).image[SECTOR * sector : SECTOR * (sector + 1)]


class Difference(Exception):
    """A run whose reply isn't the one that is known: what was wanted, and what was found."""


def expect(what: str, wanted: str, found: str) -> None:
    if wanted != found:
        raise Difference(f"{what}\nwanted: {wanted.rstrip()}\nfound:  {found.rstrip()}")


def make_base(program: str, folder: str, kind: Kind) -> Base:
    if kind.layout:
        return forged_base(kind)
    image, state = f"{folder}/base", model.new(SEGMENTS, kind.version)
    with open(image, "wb") as file:
        file.write(new_volume.image_of(SEGMENTS, kind.version, kind.unit))
    ran = subprocess.run([program, "run", image], input=kind.script.encode(), capture_output=True, check=True)
    wanted = ""
    for reply, state in replies(state, kind.script.encode().splitlines()):
        wanted += reply
    expect(f"the script of {kind.name}", wanted, ran.stdout.decode())
    with open(image, "rb") as file:
        return Base(file.read(), model.dropped(state))


def forged_base(kind: Kind) -> Base:
    """A volume that no program leaves: the plain checker finds the tree of the script there, and says that it is sound."""
    state = model.new(SEGMENTS, kind.version)
    for line in kind.script.splitlines():
        reply, state = model.step(state, line)
        expect(f"{line} of {kind.name}", "ok", reply[0][:2])
    state = model.dropped(state)
    image = forging.forged(state, kind.unit, kind.layout)
    walk = format_checker.Walk(image)
    volume, clean = walk.run(), sum(used == 0 for used, _, _ in walk.usage)
    if state_of(volume) != state or clean != SEGMENTS // forging.CLEAN_OF:
        raise Difference(f"the forged image of {kind.name} has another tree, or {clean} clean segments")
    return Base(image, state)


class Patched:
    """An image some of whose sectors are others, as the plain checker reads it."""

    def __init__(self, image: bytes, sectors: Callable[[int], bytes | None]):
        self.image, self.sectors = image, sectors

    def __len__(self) -> int:
        return len(self.image)

    def __getitem__(self, place: slice) -> bytes:
        changed = self.sectors(place.start // SECTOR)
        return self.image[place] if changed is None else changed


def checked(image: Patched) -> tuple[str, format_checker.Volume | None]:
    """What `check` has to print, and the volume where it is ok."""
    try:
        volume = format_checker.mounted(image)
        return f"{volume.check()}\n", volume
    except format_checker.Refused as refusal:
        return f"err {refusal}\n", None


def state_of(found: format_checker.Volume) -> model.State:
    """The model's state of what the plain checker found."""
    nodes = {number: node_of(found, number) for number in found.inodes}
    return model.State(found.checkpoint.segments, found.checkpoint.version, nodes, {}, found.need())


def node_of(found: format_checker.Volume, number: int) -> model.Node:
    inode = found.inodes[number]
    if inode.kind == format_checker.DIRECTORY:
        return model.Node("dir", found.names[number], inode.form)
    if inode.kind == format_checker.LINK:
        return model.Node("link", found.content(number))
    return model.Node("file", model.put_bytes(model.Body(), 0, found.content(number)))
