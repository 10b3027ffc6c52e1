"""Images of sound volumes that no program leaves, byte for byte as docs/FORMAT.md has them, of a tree that bench/model.py made.

N/8 segments are clean and no more, dead blocks stand in all others, and every place may have a block of any kind: no log was written so. The
dead ones have entries like those of live blocks, some of the same blocks, and any bytes. Clean segments have old chunks and other bytes.
"""
import random
import struct
from collections.abc import Callable
from typing import NamedTuple

import model
import new_volume
from format_checker import BLOCKS, DATA, DIRECT, DIRECTORY, DOUBLE, DOUBLE_FROM, FILE, FIRST, INODE, INODE_MAP, LEAF, LINK, MAGIC, MAP_BLOCKS
from format_checker import MOST_ENTRIES, MOST_OBJECTS, NEW_FIRST, POINTERS, SECOND_SLOT, SECTOR, SEGMENT, SHAPE, SLOTS, SUMMED_VERSION, USAGE, USAGE_ENTRIES
from format_checker import Block, crc32c, place_of

KINDS = {"file": FILE, "dir": DIRECTORY, "link": LINK}
SEED = 1
# How many segments stay clean, of each eight.
CLEAN_OF = 8
Contents = dict[Block, Callable[[dict[Block, int]], bytes]]


class Layout(NamedTuple):
    """How live blocks lie: as many in each segment, or as few segments full as have them all, and one in each other."""

    is_level: bool


def bytes_of(node: model.Node) -> bytes:
    """All bytes of an object."""
    if node.kind == "file":
        return b"".join(node.body.blocks)
    if node.kind == "link":
        return node.body
    slots = [struct.pack("<IB", number, len(name)) + name for name, number in node.body.items()]
    return b"".join(slot.ljust(SLOTS[node.form], b"\0") for slot in slots)


def addresses(blocks: list[Block | None], places: dict[Block, int]) -> bytes:
    return struct.pack(f"<{len(blocks)}I", *(places.get(it, 0) if it else 0 for it in blocks))


def inode(state: model.State, number: int, places: dict[Block, int]) -> bytes:
    node = state.nodes[number]
    head = struct.pack("<BBHIII", KINDS[node.kind], node.form, 0, number, model.links_of(state, number), node.size())
    direct = [Block(number, DATA, at) for at in range(DIRECT)]
    return head.ljust(32, b"\0") + addresses([*direct, Block(number, POINTERS, 0), Block(number, DOUBLE, 0)], places)


def first_of_leaf(index: int) -> int:
    """The first block that a leaf leads to: of index 0 the single one."""
    return DIRECT if index == 0 else DOUBLE_FROM + LEAF * (index - 1)


def blocks_of(state: model.State, number: int) -> Contents:
    """The blocks of an object, each with what it holds once all have their places."""
    found: Contents = {Block(number, INODE, 0): lambda places: inode(state, number, places)}
    text = bytes_of(state.nodes[number])
    stored = [at for at in range(-(-len(text) // SECTOR)) if any(text[SECTOR * at : SECTOR * (at + 1)])]
    for at in stored:
        found[Block(number, DATA, at)] = lambda _, part=text[SECTOR * at : SECTOR * (at + 1)]: part
    leaves = {0 if at < DOUBLE_FROM else 1 + (at - DOUBLE_FROM) // LEAF for at in stored if at >= DIRECT}
    for index in leaves:
        below: list[Block | None] = [Block(number, DATA, first_of_leaf(index) + at) for at in range(LEAF)]
        found[Block(number, POINTERS, index)] = lambda places, below=below: addresses(below, places)
    if leaves - {0}:
        roots: list[Block | None] = [Block(number, POINTERS, at + 1) for at in range(LEAF)]
        found[Block(number, DOUBLE, 0)] = lambda places: addresses(roots, places)
    return found


def blocks_in(state: model.State) -> Contents:
    """All live blocks but those of usage, which say where these are."""
    found: Contents = {}
    for number in state.nodes:
        found |= blocks_of(state, number)
    for index in {number // LEAF for number in state.nodes}:
        below: list[Block | None] = [Block(LEAF * index + at, INODE, 0) for at in range(LEAF)]
        found[Block(0, INODE_MAP, index)] = lambda places, below=below: addresses(below, places)
    return found


class Forged:
    """The image of a tree, as it is made."""

    def __init__(self, state: model.State, unit: int, layout: Layout):
        self.state, self.unit, self.layout = state, unit, layout
        self.chance = random.Random(SEED)
        self.image = bytearray(SECTOR * new_volume.sectors_of(state.segments, state.version))
        self.contents = blocks_in(state)
        self.made_of = list(self.contents.values())
        self.usage = [Block(0, USAGE, at) for at in range(-(-state.segments // USAGE_ENTRIES))]
        self.live = [*self.contents, *self.usage]
        self.number = self.chance.randrange(2**20, 2**40)
        # Of each segment in use how long each of its chunks is, and the block of each place, by its address.
        self.chunks: dict[int, list[int]] = {}
        self.places: dict[Block, int] = {}

    def put(self, address: int, content: bytes) -> None:
        at = SECTOR * (place_of(address) if self.state.version == SUMMED_VERSION else address)
        self.image[at : at + SECTOR] = content.ljust(SECTOR, b"\0")

    def made(self) -> bytes:
        self.spread()
        self.write_segments()
        for block, content in self.contents.items():
            self.put(self.places[block], content(self.places))
        self.write_usage()
        self.write_unused()
        self.write_slots()
        return bytes(self.image)

    def counts(self) -> list[int]:
        """How many live blocks each segment in use has."""
        left, count = len(self.live), self.state.segments - self.state.segments // CLEAN_OF
        if self.layout.is_level:
            return [left // count + (at < left % count) for at in range(count)]
        found = []
        for behind in range(count - 1, -1, -1):
            found.append(min(MOST_ENTRIES, left - behind))
            left -= found[-1]
        return found

    def spread(self) -> None:
        """Gives each live block a place: any within those of its segment."""
        self.chance.shuffle(self.live)
        counts, at = self.counts(), 0
        for segment, count in zip(self.chance.sample(range(self.state.segments), len(counts)), counts):
            self.chunks[segment] = self.lengths(count)
            free, first = [], FIRST + SEGMENT * segment
            for length in self.chunks[segment]:
                free += range(first + 1, first + 1 + length)
                first += 1 + length
            for block, address in zip(self.live[at : at + count], self.chance.sample(free, count)):
                self.places[block] = address
            at += count

    def lengths(self, count: int) -> list[int]:
        """The chunks of a segment that has room for so many blocks, and ends on a unit: mostly the whole of it is used."""
        used = self.chance.choice([SEGMENT, SEGMENT, *range(self.unit, SEGMENT + 1, self.unit)])
        while used - 1 < count:
            used += self.unit
        summaries, lengths = self.chance.randint(1, min(used - count, used // 2)), []
        for left in range(summaries, 0, -1):
            length = used - 2 * (left - 1)
            chunk = length if left == 1 else self.chance.randint(2, length)
            lengths.append(chunk - 1)
            used -= chunk
        return lengths

    def entry(self) -> Block:
        """The entry of a dead block: that of a live one, or any."""
        if self.chance.random() < 0.5:
            return self.chance.choice(self.live)
        kind = self.chance.choice(list(BLOCKS))
        indexes, is_of_object = BLOCKS[kind]
        return Block(self.chance.randint(1, MOST_OBJECTS) if is_of_object else 0, kind, self.chance.randrange(indexes))

    def dead(self) -> bytes:
        """What a dead block holds: other bytes, or what a live one may."""
        live = self.chance.choice(self.made_of)(self.places)
        return self.chance.choice((bytes(SECTOR), self.chance.randbytes(SECTOR), live))

    def write_segments(self) -> None:
        by_address = {address: block for block, address in self.places.items()}
        for segment in range(self.state.segments):
            lengths = self.chunks.get(segment) or self.lengths(1)
            first = FIRST + SEGMENT * segment
            for length in lengths:
                entries = [by_address.get(first + 1 + at) or self.entry() for at in range(length)]
                text = b"".join(struct.pack("<HBBI", it.file, it.kind, 0, it.index) for it in entries)
                self.put(first, struct.pack("<Q", length) + text)
                for at in range(first + 1, first + 1 + length):
                    if at not in by_address:
                        self.put(at, self.dead())
                first += 1 + length

    def write_usage(self) -> None:
        rows = []
        for segment in range(self.state.segments):
            used = sum(1 + length for length in self.chunks.get(segment, []))
            live = sum((address - FIRST) // SEGMENT == segment for address in self.places.values())
            rows.append(struct.pack("<HHI", used, live, self.chance.choice((0, self.chance.randrange(2**20), 2**32 - 1))))
        for at, block in enumerate(self.usage):
            self.put(self.places[block], b"".join(rows[USAGE_ENTRIES * at : USAGE_ENTRIES * (at + 1)]))

    def write_unused(self) -> None:
        """Where version 3 has nothing, other bytes."""
        for at in range(1, NEW_FIRST) if self.state.version == SUMMED_VERSION else ():
            if at != SECOND_SLOT:
                self.image[SECTOR * at : SECTOR * (at + 1)] = self.chance.randbytes(SECTOR)

    def write_slots(self) -> None:
        """The newest checkpoint, and an older one, whose blocks are gone."""
        maps: list[Block | None] = [Block(0, INODE_MAP, at) for at in range(MAP_BLOCKS)]
        for number, places in ((self.number - 1, {}), (self.number, self.places)):
            shape = bytes([self.unit.bit_length() - 1]) + SHAPE if self.state.version == SUMMED_VERSION else bytes(8)
            text = MAGIC + struct.pack("<QII", number, self.state.segments, self.state.version) + shape
            text += addresses(maps, places) + addresses(list(self.usage), places)
            text = text.ljust(SECTOR - 4, b"\0")
            self.put(number % 2, text + struct.pack("<I", crc32c(text) if self.state.version == SUMMED_VERSION else 0))


def forged(state: model.State, unit: int, layout: Layout) -> bytes:
    """The image of a volume that has this tree."""
    return Forged(state, unit, layout).made()
