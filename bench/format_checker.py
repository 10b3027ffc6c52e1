#!/usr/bin/env python3
"""A plain checker of images: says what a mount of one has to find. It is written from the pages alone, and shares no code with the program.

It prints what `lfs check` has to print of each image, and behind an `ok` what `lfs mount` has to print.

docs/FORMAT.md has the layout and the 15 stages, docs/CALLS.md the order of a mount's refusals, and docs/SCRIPT.md the rows of a tree.
Each stage is a function of its own here. It asks for everything that its line in the table asks, and nothing else.
"""
import argparse
import struct
from typing import NamedTuple

SECTOR, SEGMENT, FIRST = 512, 64, 2
# By the new places: the device's sectors of the second slot and of the first segment.
SECOND_SLOT, NEW_FIRST = 128, 256
LEAST_SEGMENTS, MOST_SEGMENTS, SEGMENTS_STEP = 64, 1_024, 8
MAGIC = b"SLFSCKP1"
# The forms of a directory in each version; the one whose checkpoints have a checksum, what stands there behind the unit, and the largest unit.
FORMS = {1: (0,), 2: (0, 1), 3: (1,)}
SUMMED_VERSION, SHAPE, MOST_UNIT_POWER = 3, bytes((6, 9, 0, 0, 0, 0, 0)), 6
MOST_OBJECTS, MOST_LINKS = 4_095, 1_000
DIRECT, LEAF = 112, 128
DOUBLE_FROM = DIRECT + LEAF
MOST_BLOCKS = DOUBLE_FROM + LEAF * LEAF
USAGE_ENTRIES, MOST_ENTRIES = 64, 63
FILE, DIRECTORY, LINK = 1, 2, 3
KINDS = {FILE: "file", DIRECTORY: "dir", LINK: "link"}
DATA, POINTERS, DOUBLE, INODE, INODE_MAP, USAGE = 1, 2, 3, 4, 5, 6
MAP_BLOCKS, USAGE_BLOCKS = 32, 16
# For each kind of block how many indexes it has, and whether it belongs to an object.
BLOCKS = {DATA: (MOST_BLOCKS, True), POINTERS: (1 + LEAF, True), DOUBLE: (1, True), INODE: (1, True)}
BLOCKS |= {INODE_MAP: (MAP_BLOCKS, False), USAGE: (USAGE_BLOCKS, False)}
SLOTS = {0: 64, 1: 128}
MOST_ENTRIES_OF_A_DIRECTORY, MOST_TEXT = 1_024, 1_023
ROOT = 1
NEED_OF_META, NEED_OF_NONE, LIMIT_OF_SEGMENT = 7, 720, 47
HEAD = 16


class Refused(Exception):
    """A mount's refusal, as it stands behind `err`."""


class Checkpoint(NamedTuple):
    number: int
    segments: int
    version: int
    # How many sectors a unit has.
    unit: int
    map: tuple
    usage: tuple


class Inode(NamedTuple):
    kind: int
    form: int
    number: int
    links: int
    size: int
    direct: tuple
    single: int
    double: int


class Block(NamedTuple):
    """What a block is: the object, the kind and the index under which it was reached."""

    file: int
    kind: int
    index: int


class Volume(NamedTuple):
    """What a mount finds.

    blocks has the data blocks of each object that are stored, by their places; the bytes of a file are its first ones alone; names has the
    number for each name of each directory.
    """

    checkpoint: Checkpoint
    inodes: dict
    blocks: dict
    bytes_of: dict
    names: dict
    data: int
    meta: int

    def need(self):
        return self.data + NEED_OF_META * self.meta + NEED_OF_NONE

    def space(self):
        """The reply of `space`."""
        return f"ok {self.data} {self.meta} {self.need()} {LIMIT_OF_SEGMENT * self.checkpoint.segments}"

    def check(self):
        """The line of `lfs check`."""
        return f"ok {self.checkpoint.segments}{self.space()[2:]}"

    def rows(self):
        """The rows of `tree`, each behind the directory's number and the name, by which they are ordered."""
        found = {}
        for directory, names in self.names.items():
            for name, number in names.items():
                inode = self.inodes[number]
                texts = [directory, word_of(name), KINDS[inode.kind], number, inode.links, inode.size, self.head(inode)]
                found[directory, name] = " ".join(map(str, texts))
        return found

    def content(self, number):
        """All bytes of an object."""
        return first_bytes(self.blocks[number], self.inodes[number].size)

    def head(self, inode):
        if inode.kind == DIRECTORY:
            return "-"
        return word_of(self.bytes_of[inode.number]) if inode.kind == LINK else self.bytes_of[inode.number].hex() or "-"


def word_of(name):
    """Bytes as a word of the script language."""
    return "".join(chr(it) if 0x21 <= it <= 0x7E and it != 0x5C else f"\\{it:02x}" for it in name) or "\\"


def listing(rows):
    """The reply of `tree` that has these rows."""
    return "".join(f"{line}\n" for line in (f"ok {len(rows)}", *(rows[it] for it in sorted(rows))))


def numbers(block, start, end):
    """The numbers of 32 bits in a range of bytes."""
    return struct.unpack_from(f"<{(end - start) // 4}I", block, start)


def is_zero(block):
    return block.count(0) == len(block)


def blocks_of(size):
    return -(-size // SECTOR)


def first_bytes(blocks, count):
    """So many bytes of an object, of which these blocks are stored."""
    return b"".join(blocks.get(place, bytes(SECTOR)) for place in range(blocks_of(count)))[:count]


def crc32c(message):
    """The checksum of RFC 3720, sections 12.1 and B.4, bit by bit."""
    register = 0xFFFF_FFFF
    for byte in message:
        register ^= byte
        for _ in range(8):
            register = register >> 1 ^ (0x82F6_3B78 if register & 1 else 0)
    return register ^ 0xFFFF_FFFF


def checkpoint_of(slot, block):
    """The checkpoint that a slot's sector holds, or None."""
    number, segments, version = struct.unpack_from("<QII", block, 8)
    fits = block[:8] == MAGIC and number >= 1 and number % 2 == slot and version in FORMS
    if version == SUMMED_VERSION:
        fits = fits and block[24] <= MOST_UNIT_POWER and block[25:32] == SHAPE and is_zero(block[224:508])
        fits = fits and int.from_bytes(block[508:], "little") == crc32c(block[:508])
    else:
        fits = fits and is_zero(block[24:32]) and is_zero(block[224:])
    if fits and LEAST_SEGMENTS <= segments <= MOST_SEGMENTS and segments % SEGMENTS_STEP == 0:
        return Checkpoint(number, segments, version, 1 << block[24], numbers(block, 32, 160), numbers(block, 160, 224))
    return None


def entries_of(block):
    """The entries of a summary, or None where it is ill-formed."""
    count = int.from_bytes(block[:2], "little")
    if not 1 <= count <= MOST_ENTRIES or not is_zero(block[2:8]) or not is_zero(block[8 + 8 * count :]):
        return None
    entries = [struct.unpack_from("<HBBI", block, 8 + 8 * at) for at in range(count)]
    for file, kind, zero, index in entries:
        indexes, is_of_object = BLOCKS.get(kind, (0, False))
        if zero or index >= indexes or (not 1 <= file <= MOST_OBJECTS if is_of_object else file):
            return None
    return [Block(file, kind, index) for file, kind, _, index in entries]


def inode_of(block, version):
    """The inode that a sector holds, or None where it is ill-formed in this version."""
    kind, form = block[0], block[1]
    number, links, size = numbers(block, 4, 16)
    if kind not in KINDS or form not in (FORMS[version] if kind == DIRECTORY else (0,)):
        return None
    if not is_zero(block[2:4]) or not is_zero(block[16:32]) or not is_zero(block[488:]):
        return None
    if not 1 <= number <= MOST_OBJECTS or not 1 <= links <= MOST_LINKS or not is_size(kind, form, size):
        return None
    single, double = numbers(block, 480, 488)
    return Inode(kind, form, number, links, size, numbers(block, 32, 480), single, double)


def is_size(kind, form, size):
    if kind == FILE:
        return size <= MOST_BLOCKS * SECTOR
    if kind == LINK:
        return 1 <= size <= MOST_TEXT
    return size % SLOTS[form] == 0 and size <= SLOTS[form] * MOST_ENTRIES_OF_A_DIRECTORY


def name_of(slot):
    """The number and the name that a directory's slot holds, or None where it is ill-formed."""
    number, length = struct.unpack_from("<IB", slot)
    name, rest = slot[5 : 5 + length], slot[5 + length :]
    if not 1 <= number <= MOST_OBJECTS or not 1 <= length <= len(slot) - 5 or not is_zero(rest):
        return None
    return None if 0 in name or b"/" in name or name in (b".", b"..") else (number, name)


def place_of(address):
    """The device's sector at which a sector of a volume stands by the new places."""
    return SECOND_SLOT * address if address < FIRST else NEW_FIRST - FIRST + address


class Walk:
    """The stages over one image, in their order. Each is a function whose number the table of FORMAT.md has."""

    def __init__(self, image):
        self.image = image
        self.is_apart = False
        self.checkpoint = self.newest()
        self.first_behind = FIRST + SEGMENT * self.checkpoint.segments
        if len(image) // SECTOR < (place_of(self.first_behind) if self.is_apart else self.first_behind):
            raise Refused("TooSmall")
        self.code, self.reached, self.usage, self.labels = 0, {}, [], {}
        self.map, self.inodes, self.blocks, self.bytes_of, self.names = {}, {}, {}, {}, {}
        # Of each object that has one: the addresses in its single leaf and its double root, and in each leaf of that.
        self.singles, self.doubles, self.leaves = {}, {}, {}

    def sector(self, address):
        at = place_of(address) if self.is_apart else address
        return bytes(self.image[SECTOR * at : SECTOR * (at + 1)])

    def is_older(self, slot, address):
        """Whether a sector holds a slot's checkpoint of a version before the last."""
        held = checkpoint_of(slot, self.sector(address))
        return held is not None and held.version < SUMMED_VERSION

    def is_at_new_places(self):
        """Whether a volume may stand by the new places alone, where one of version 3 does. Old ones stand by the old places."""
        if any(self.is_older(slot, slot) for slot in (0, 1)):
            return False
        if len(self.image) // SECTOR < place_of(FIRST + SEGMENT * LEAST_SEGMENTS) or self.is_older(1, SECOND_SLOT):
            raise Refused("NoCheckpoint")
        return True

    def newest(self):
        if len(self.image) // SECTOR < FIRST + SEGMENT * LEAST_SEGMENTS:
            raise Refused("TooSmall")
        self.is_apart = self.is_at_new_places()
        found = [it for it in (checkpoint_of(slot, self.sector(slot)) for slot in (0, 1)) if it]
        # Each place has checkpoints of its own versions alone.
        found = [it for it in found if (it.version == SUMMED_VERSION) == self.is_apart]
        if not found:
            raise Refused("NoCheckpoint")
        return max(found, key=lambda it: it.number)

    def ask(self, holds):
        if not holds:
            raise Refused(f"Damaged {self.code}")

    def reach(self, address, file, kind, index):
        """A further address of this stage, which has to be fresh. Answers its block."""
        self.ask(FIRST <= address < self.first_behind and address not in self.reached)
        self.reached[address] = Block(file, kind, index)
        return self.sector(address)

    def run(self):
        stages = [self.usage_blocks, self.summaries, self.inode_map, self.inode_blocks, self.pointers_of_inodes, self.leaves_of_doubles]
        stages += [self.data_blocks, self.labels_of_blocks, self.live_counts, self.directories, self.texts, self.names_of_objects]
        stages += [self.links, self.space, self.clean]
        for self.code, stage in enumerate(stages, 1):
            stage()
        return self.found()

    def found(self):
        data = sum(it.kind == DATA for it in self.reached.values())
        meta = sum(it.kind in (INODE, POINTERS, DOUBLE) for it in self.reached.values())
        return Volume(self.checkpoint, self.inodes, self.blocks, self.bytes_of, self.names, data, meta)

    def usage_blocks(self):
        count = -(-self.checkpoint.segments // USAGE_ENTRIES)
        self.ask(all((address != 0) == (at < count) for at, address in enumerate(self.checkpoint.usage)))
        for at, address in enumerate(self.checkpoint.usage[:count]):
            block = self.reach(address, 0, USAGE, at)
            self.usage += struct.iter_unpack("<HHI", block)
        self.ask(not any(any(it) for it in self.usage[self.checkpoint.segments :]))
        del self.usage[self.checkpoint.segments :]
        for used, live, _ in self.usage:
            self.ask(used <= SEGMENT and used % self.checkpoint.unit == 0 and (used == 0) == (live == 0) and (live < used or used == 0))

    def summaries(self):
        for segment, (used, _, _) in enumerate(self.usage):
            at = 0
            while at < used:
                first = FIRST + SEGMENT * segment + at
                entries = entries_of(self.sector(first))
                self.ask(entries is not None and at + 1 + len(entries) <= used)
                self.labels.update(enumerate(entries, first + 1))
                at += 1 + len(entries)

    def inode_map(self):
        for at, address in enumerate(self.checkpoint.map):
            if address:
                entries = numbers(self.reach(address, 0, INODE_MAP, at), 0, SECTOR)
                self.ask(any(entries))
                self.map.update((LEAF * at + place, it) for place, it in enumerate(entries) if it)
        self.ask(0 not in self.map and ROOT in self.map)

    def inode_blocks(self):
        for number, address in self.map.items():
            inode = inode_of(self.reach(address, number, INODE, 0), self.checkpoint.version)
            self.ask(inode is not None and inode.number == number)
            self.inodes[number] = inode
        self.ask(self.inodes[ROOT].kind == DIRECTORY)

    def pointers(self, address, number, kind, index):
        """The addresses in a further leaf or double root."""
        found = numbers(self.reach(address, number, kind, index), 0, SECTOR)
        self.ask(any(found))
        return found

    def pointers_of_inodes(self):
        for number, inode in self.inodes.items():
            if inode.single:
                self.singles[number] = self.pointers(inode.single, number, POINTERS, 0)
            if inode.double:
                self.doubles[number] = self.pointers(inode.double, number, DOUBLE, 0)

    def leaves_of_doubles(self):
        for number, double in self.doubles.items():
            for at, address in enumerate(double):
                if address:
                    self.leaves[number, at] = self.pointers(address, number, POINTERS, at + 1)

    def addresses(self, number):
        """The addresses of an object's data blocks that are stored, with their places."""
        yield from self.stored(0, self.inodes[number].direct)
        yield from self.stored(DIRECT, self.singles.get(number, ()))
        for at in range(LEAF):
            yield from self.stored(DOUBLE_FROM + LEAF * at, self.leaves.get((number, at), ()))

    @staticmethod
    def stored(first, addresses):
        return ((first + at, address) for at, address in enumerate(addresses) if address)

    def data_blocks(self):
        for number, inode in self.inodes.items():
            blocks = self.blocks[number] = {}
            for place, address in self.addresses(number):
                blocks[place] = self.reach(address, number, DATA, place)
                self.ask(not is_zero(blocks[place]) and place < blocks_of(inode.size))
            whole, rest = divmod(inode.size, SECTOR)
            self.ask(rest == 0 or whole not in blocks or is_zero(blocks[whole][rest:]))
            self.bytes_of[number] = first_bytes(blocks, HEAD if inode.kind == FILE else inode.size)[: inode.size]

    def labels_of_blocks(self):
        for address, block in self.reached.items():
            self.ask(self.labels.get(address) == block)

    def live_counts(self):
        found = [0] * len(self.usage)
        for address in self.reached:
            found[(address - FIRST) // SEGMENT] += 1
        self.ask(found == [live for _, live, _ in self.usage])

    def directories(self):
        for number, inode in self.inodes.items():
            if inode.kind == DIRECTORY:
                self.names[number] = self.names_in(self.bytes_of[number], SLOTS[inode.form])

    def names_in(self, text, length):
        names = {}
        for at in range(0, len(text), length):
            slot = name_of(text[at : at + length])
            self.ask(slot is not None and slot[1] not in names and slot[0] in self.map)
            names[slot[1]] = slot[0]
        return names

    def texts(self):
        self.ask(not any(inode.kind == LINK and 0 in self.bytes_of[number] for number, inode in self.inodes.items()))

    def named(self):
        """How many names each number has."""
        found = dict.fromkeys(self.inodes, 0)
        for names in self.names.values():
            for number in names.values():
                found[number] += 1
        return found

    def names_of_objects(self):
        for number, count in self.named().items():
            self.ask(count >= 1 or number == ROOT)
            self.ask(count == (0 if number == ROOT else 1) or number not in self.names)
        left, seen = [ROOT], {ROOT}
        while left:
            below = [it for it in self.names[left.pop()].values() if it in self.names and it not in seen]
            left += below
            seen.update(below)
        self.ask(seen == set(self.names))

    def links(self):
        named = self.named()
        for number, inode in self.inodes.items():
            wanted = named[number]
            if number in self.names:
                wanted = 2 + sum(it in self.names for it in self.names[number].values())
            self.ask(inode.links == wanted)

    def space(self):
        self.ask(self.found().need() <= LIMIT_OF_SEGMENT * self.checkpoint.segments)

    def clean(self):
        self.ask(8 * sum(used == 0 for used, _, _ in self.usage) >= self.checkpoint.segments)


def mounted(image):
    """The volume that an image holds. Raises the refusal where a mount has to refuse it."""
    return Walk(image).run()


def main():
    words = argparse.ArgumentParser(description=__doc__, formatter_class=argparse.RawDescriptionHelpFormatter)
    words.add_argument("images", nargs="+", metavar="IMAGE")
    for path in words.parse_args().images:
        with open(path, "rb") as file:
            image = file.read()
        try:
            volume = mounted(image)
            print(volume.check())
            print(listing(volume.rows()), end="")
        except Refused as refusal:
            print(f"err {refusal}")


if __name__ == "__main__":
    main()
