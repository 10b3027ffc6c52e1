"""Changed images, and what `check`, `mount` and `run` say of them."""
import random
import struct
from collections.abc import Iterator
from typing import NamedTuple

import format_checker
import new_volume
from fuzzing.corpus import Corpus
from fuzzing.lines import replies
from fuzzing.volumes import KINDS, SEGMENTS, Patched, Volumes, checked, expect, state_of
from served import SECTOR, Ran

# One in so many of the images whose reply is an `ok` that was there before is tried.
OK_TRIED = 8
# A checkpoint that has a checksum, and was changed, mostly gets one that is right.
SUMMED = 0.8
# A script on a changed image. From this number of a checkpoint on nothing can be changed.
CHANGES, LOOKS = [b"create /fuzz", b"pwrite 0 0 66757a7a"], [b"sync", b"tree", b"space"]
WORN = 2**62
# Numbers that mean something in two bytes, and in four.
SHORT = (0, 1, 2, 3, 62, 63, 64, 65, 4_095, 4_096, 65_535)
LONG = (0, 1, 2, 63, 64, 65, 128, 512, 1_000, 1_001, 1_023, 4_095, 4_096, 4_097, 4_098, 8_511_488, 65_536, 2**31, 2**32 - 1)


class Image(NamedTuple):
    base: int
    changes: dict[int, bytes]
    # The sectors that the run read.
    reads: tuple[int, ...] = ()


def put(made: bytearray, at: int, part: bytes) -> None:
    """Puts a part at the place of its length that holds a byte."""
    start = at - at % len(part)
    made[start : start + len(part)] = part


def is_summed(content: bytes) -> bool:
    """Whether a sector has the text and the version of a checkpoint that has a checksum."""
    return content.startswith(format_checker.MAGIC) and content[20:24] == struct.pack("<I", format_checker.SUMMED_VERSION)


class Images:
    """Changes images, and tries `check` on them."""

    def __init__(self, volumes: Volumes, chance: random.Random):
        self.volumes, self.chance = volumes, chance
        self.corpus: Corpus[Image] = Corpus(chance)
        # Those without a change.
        self.whole: list[Image] = []

    def seeds(self) -> Iterator[Image]:
        return (Image(at, {}) for at, kind in enumerate(KINDS) if kind.of_images)

    def next(self) -> Image:
        """A changed image. Where the one that it is made from is damaged already, a stage behind that damage isn't reached."""
        return self.change(self.chance.choice(self.whole) if self.chance.random() < 0.4 else self.corpus.pick())

    def change(self, tried: Image) -> Image:
        changes = dict(tried.changes)
        for _ in range(self.chance.choice((1, 1, 1, 1, 2, 3))):
            sector = self.sector(tried)
            content = changes.get(sector, self.volumes.sector(tried.base, sector))
            made = self.changed(tried, content)
            if is_summed(made) and self.chance.random() < SUMMED:
                made = made[:508] + struct.pack("<I", format_checker.crc32c(made[:508]))
            changes[sector] = made
        return Image(tried.base, changes)

    def sector(self, tried: Image) -> int:
        """Mostly one that is read."""
        if tried.reads and self.chance.random() < 0.97:
            return self.chance.choice(tried.reads)
        return self.chance.randrange(len(self.volumes.base(tried.base).image) // SECTOR)

    def place(self, content: bytes) -> int:
        """A byte: any, one near the front, or one beside what isn't zero."""
        kind = self.chance.random()
        if kind < 0.3:
            return self.chance.randrange(SECTOR)
        if kind < 0.6:
            return self.chance.randrange(40)
        places = [at for at, it in enumerate(content) if it] or [0]
        return min(SECTOR - 1, self.chance.choice(places) + self.chance.choice((0, 0, 0, 1, 3, 4)))

    def changed(self, tried: Image, content: bytes) -> bytes:
        """A sector with another byte, another number or another part, or a whole other sector."""
        made, at, kind = bytearray(content), self.place(content), self.chance.randrange(8)
        if kind == 0:
            made[at] ^= 1 << self.chance.randrange(8)
        elif kind == 1:
            made[at] = self.chance.choice((0, 1, 2, 3, 46, 47, 64, 255, self.chance.randrange(256)))
        elif kind == 2:
            made[at] = (made[at] + self.chance.choice((-1, 1, 8, -8))) % 256
        elif kind in (3, 4):
            put(made, at, self.address(tried).to_bytes(4, "little"))
        elif kind == 5:
            put(made, at, self.chance.choice(SHORT).to_bytes(2, "little"))
        elif kind == 6:
            length = self.chance.choice((1, 4, 8, 64, 128))
            other = self.chance.randrange(SECTOR // length) * length
            put(made, at, content[other : other + length])
        else:
            return self.volumes.sector(tried.base, self.sector(tried))
        return bytes(made)

    def address(self, tried: Image) -> int:
        """The address of a sector that is read or of one beside it, or another number."""
        if tried.reads and self.chance.random() < 0.6:
            before = new_volume.sectors_of(0, KINDS[tried.base].version) - format_checker.FIRST
            return max(0, self.chance.choice(tried.reads) - before + self.chance.choice((0, 0, 1, -1)))
        return self.chance.choice(LONG)

    def reply(self, tried: Image, word: str = "check", script: bytes = b"") -> Ran:
        served = self.volumes.served(tried.base, word)
        ran = served.run(tried.changes, script)
        served.restore()
        return ran

    def checked(self, tried: Image) -> tuple[str, format_checker.Volume | None]:
        return checked(Patched(self.volumes.base(tried.base).image, tried.changes.get))

    def look(self, tried: Image) -> Ran:
        """A run of `check`, which is compared with the plain checker."""
        ran = self.reply(tried)
        wanted, _ = self.checked(tried)
        expect("check", f"{int(wanted.startswith('err'))} {wanted}", f"{ran.status} {ran.output.decode()}")
        return ran

    def look_further(self, tried: Image) -> None:
        """Where the image is mounted: its tree, a script on it, and the image that this leaves."""
        _, volume = self.checked(tried)
        if volume is None:
            return
        expect("mount", format_checker.listing(volume.rows()), self.reply(tried, "mount").output.decode())
        lines = LOOKS if volume.checkpoint.number >= WORN else CHANGES + LOOKS
        wanted = [reply for reply, _ in replies(state_of(volume), lines)]
        served = self.volumes.served(tried.base, "run")
        try:
            ran = served.run(tried.changes, b"".join(line + b"\n" for line in lines))
            expect("run", "".join(wanted), ran.output.decode())
            space = wanted[-1].removeprefix("ok ")
            expect("check behind run", f"ok {SEGMENTS} {space}", checked(Patched(served.base, served.sector))[0])
        finally:
            served.restore()

    def is_tried(self, tried: Image) -> bool:
        wanted, volume = self.checked(tried)
        return volume is None or wanted.encode() not in self.corpus.replies or self.chance.randrange(OK_TRIED) == 0

    def attempt(self, tried: Image) -> None:
        """Tries an image, and keeps it where it shows something new."""
        ran = self.look(tried)
        seen = tried._replace(reads=ran.reads)
        if not tried.changes:
            self.whole.append(seen)
        if self.corpus.offer(seen, [ran.output], ran.reads):
            self.look_further(tried)

    def smaller(self, tried: Image) -> Iterator[Image]:
        """The same with a change less: of a whole sector, or of a byte."""
        for sector, content in tried.changes.items():
            old = self.volumes.sector(tried.base, sector)
            yield Image(tried.base, {it: changed for it, changed in tried.changes.items() if it != sector})
            for at in range(SECTOR):
                if content[at] != old[at]:
                    less = content[:at] + old[at : at + 1] + content[at + 1 :]
                    yield Image(tried.base, {**tried.changes, sector: less})

    def spelt(self, tried: Image) -> str:
        rows = [f"the image `{KINDS[tried.base].name}` with"]
        for sector, content in sorted(tried.changes.items()):
            old = self.volumes.sector(tried.base, sector)
            rows += [f"  sector {sector}, byte {at}: {content[at]:02x} for {old[at]:02x}" for at in range(SECTOR) if content[at] != old[at]]
        return "\n".join(rows)
