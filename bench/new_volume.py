"""The image of a new volume, byte for byte, as docs/FORMAT.md has it: of each version, and of version 3 with units of so many sectors.

It is made without the program, so that a trial has volumes whatever the program's commands make.
"""
import struct

from format_checker import DIRECTORY, FIRST, FORMS, INODE, INODE_MAP, MAGIC, MAP_BLOCKS, NEW_FIRST, ROOT, SECTOR, SEGMENT, SHAPE
from format_checker import SUMMED_VERSION, USAGE, USAGE_ENTRIES, crc32c, place_of


def sectors_of(segments, version):
    """How many sectors an image has for a volume."""
    return (NEW_FIRST if version == SUMMED_VERSION else FIRST) + SEGMENT * segments


def first_blocks(segments, version, unit):
    """The sectors of the first chunk, from its summary on, but for those that nobody writes."""
    usage = -(-segments // USAGE_ENTRIES)
    labels = [(ROOT, INODE, 0), (0, INODE_MAP, 0), *((0, USAGE, at) for at in range(usage))]
    used = -(-(1 + len(labels)) // unit) * unit
    padded = [*labels, *[(0, USAGE, 0)] * (used - 1 - len(labels))]
    summary = struct.pack("<Q", len(padded)) + b"".join(struct.pack("<HBBI", file, kind, 0, index) for file, kind, index in padded)
    inode = struct.pack("<BBHIII", DIRECTORY, FORMS[version][-1], 0, ROOT, 2, 0)
    inode_map = struct.pack("<II", 0, FIRST + 1)
    counts = struct.pack("<HHI", used, len(labels), 1)
    return [summary, inode, inode_map, counts, *[b""] * (usage - 1)]


def checkpoint(segments, version, unit, number=1):
    """The first checkpoint's sector, or the same of a later number."""
    usage = -(-segments // USAGE_ENTRIES)
    shape = bytes([unit.bit_length() - 1]) + SHAPE if version == SUMMED_VERSION else bytes(8)
    text = MAGIC + struct.pack("<QII", number, segments, version) + shape + struct.pack("<I", FIRST + 2).ljust(4 * MAP_BLOCKS, b"\0")
    text += struct.pack(f"<{usage}I", *range(FIRST + 3, FIRST + 3 + usage))
    text = text.ljust(SECTOR - 4, b"\0")
    return text + struct.pack("<I", crc32c(text) if version == SUMMED_VERSION else 0)


def image_of(segments, version=1, unit=1):
    """The whole image. Only version 3 has units of several sectors."""
    image = bytearray(SECTOR * sectors_of(segments, version))
    blocks = dict(enumerate(first_blocks(segments, version, unit), FIRST))
    for address, block in {1: checkpoint(segments, version, unit), **blocks}.items():
        at = SECTOR * (place_of(address) if version == SUMMED_VERSION else address)
        image[at : at + len(block)] = block
    return image
