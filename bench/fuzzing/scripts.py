"""Changed scripts, and what `run` says to them."""
import functools
import itertools
import random
from collections.abc import Hashable, Iterator, Sequence
from typing import NamedTuple

import model
from fuzzing import lines as spelling
from fuzzing.corpus import Corpus
from fuzzing.volumes import KINDS, Difference, Patched, Volumes, checked, expect, state_of
from served import Ran, Served, Stop

MOST_LINES = 60
NAMES = [b"a", b"b", b"c", b"d", b"e", b"f", b"g", b"0", b"2", b".", b"..", b"...", b"", b"\\20", b"\\ff"]
NEW_NAMES = [b"A", b"B", b"C", b"D", b"E", b"F", b"n" * 58, b"\\20"]
LONG_NAMES = [b"n" * 59, b"n" * 60, b"m" * 123, b"m" * 124]
OFFSETS = [0, 1, 500, 511, 512, 513, 57_344, 122_368, 122_880, 188_416, 1_048_576, 8_445_952, 8_511_487, 8_511_488, 2**32, 2**64 - 1]
LENGTHS = [0, 1, 2, 12, 511, 512, 513, 4_096, 65_535, 65_536, 65_537, 2**32 - 1]
HANDLES = [0, 0, 0, 0, 1, 1, 2, 3, 63, 64, 2**32 - 1]
CALLS = sorted(spelling.COMMANDS)
# How often a call is taken: 3 where it isn't here.
WEIGHTS = {b"version": 1, b"upgrade": 1, b"clean": 1, b"sync": 2, b"fsync": 1, b"tree": 2}
WEIGHTS |= {b"rename": 8, b"symlink": 6, b"create": 5, b"mkdir": 5, b"link": 5}
# Those whose last path is to be a new name.
MAKING = (b"create", b"mkdir", b"symlink", b"link", b"rename")
CONTENTS = [b"-", b"00", b"61", b"6162", b"00" * 12, b"6c" * 512, b"00" * 600, b"0d" * 1_025]
SPOILT = [b"", b" ", b"0", b"\\", b"\\2f", b"A", b"\xff", b"\0", b"-"]


class Script(NamedTuple):
    base: int
    lines: tuple[bytes, ...]

    def text(self) -> bytes:
        return b"".join(line + b"\n" for line in self.lines)


class Scripts:
    """Changes scripts, and tries `run` on them."""

    def __init__(self, volumes: Volumes, chance: random.Random):
        self.volumes, self.chance = volumes, chance
        self.corpus: Corpus[Script] = Corpus(chance)
        self.weights = [WEIGHTS.get(it, 3) for it in CALLS]
        self.paths = functools.cache(lambda at: paths_of(volumes.base(at).state))
        self.files = functools.cache(lambda at: files_of(volumes.base(at).state) or [b"/A"])

    def seeds(self) -> Iterator[Script]:
        for at, kind in enumerate(KINDS):
            if kind.weight > 1:
                yield Script(at, (b"tree", b"space"))
                yield Script(at, tuple(self.line(at, []) for _ in range(8)))

    def next(self) -> Script:
        return self.change(self.corpus.pick())

    def change(self, tried: Script) -> Script:
        base, lines = tried.base, list(tried.lines)
        if self.chance.random() < 0.1:
            base = self.chance.choices(range(len(KINDS)), [it.weight for it in KINDS])[0]
        for _ in range(self.chance.choice((1, 2, 3, 6, 10))):
            self.edit(base, lines)
        return Script(base, tuple(lines[:MOST_LINES]))

    def edit(self, base: int, lines: list[bytes]) -> None:
        at, kind = self.chance.randrange(len(lines) + 1), self.chance.random()
        there = lines[at : at + 1]
        if kind < 0.5 or not there:
            lines.insert(at, self.line(base, lines))
        elif kind < 0.65:
            del lines[at]
        elif kind < 0.8:
            lines[at] = self.other_argument(base, lines, lines[at])
        elif kind < 0.88:
            other = self.corpus.pick().lines
            lines[at:at] = other[self.chance.randrange(len(other) + 1) :][:8]
        elif kind < 0.95:
            lines.insert(self.chance.randrange(len(lines)), lines[at])
        elif kind < 0.98:
            lines[at:at] = there * self.chance.choice((2, 5, 64))
        else:
            lines[at] = self.spoilt(lines[at])

    def spoilt(self, line: bytes) -> bytes:
        """A line that may be bad."""
        at = self.chance.randrange(len(line) + 1)
        return line[:at] + self.chance.choice(SPOILT) + line[at + self.chance.randrange(2) :]

    def line(self, base: int, lines: list[bytes]) -> bytes:
        """A line, which mostly opens a file where it needs one that is open and none is."""
        call = self.chance.choices(CALLS, self.weights)[0]
        readers = spelling.COMMANDS[call]
        if readers[:1] == (spelling.H,) and not handles_of(lines) and self.chance.random() < 0.9:
            return b" ".join([b"open", self.chance.choice(self.files(base))])
        return b" ".join([call, *(self.argument(base, lines, call, at) for at, _ in enumerate(readers))])

    def other_argument(self, base: int, lines: list[bytes], line: bytes) -> bytes:
        call, *words = line.split(b" ")
        if not words or call not in spelling.COMMANDS or len(words) != len(spelling.COMMANDS[call]):
            return self.line(base, lines)
        at = self.chance.randrange(len(words))
        words[at] = self.argument(base, lines, call, at)
        return b" ".join([call, *words])

    def argument(self, base: int, lines: list[bytes], call: bytes, at: int) -> bytes:
        readers = spelling.COMMANDS[call]
        reader = readers[at]
        if reader is spelling.P:
            return self.path(base, lines, call in MAKING and at == len(readers) - 1)
        if reader is spelling.HEX:
            return self.chance.choice(CONTENTS)
        if reader is spelling.BYTE:
            return str(self.chance.choice((0, 0, 1, 255))).encode()
        if at == 0:
            return str(self.chance.choice(HANDLES + list(range(handles_of(lines))) * 3)).encode()
        return str(self.chance.choice(OFFSETS if reader is spelling.OFF else LENGTHS)).encode()

    def path(self, base: int, lines: list[bytes], is_new: bool) -> bytes:
        """Mostly one that is there or was named, or a name in its directory; often with more or less behind it."""
        named = [it for line in lines for it in line.split(b" ")[1:] if it[:1] == b"/" or it[:1].isalpha()]
        kind, path = self.chance.random(), self.chance.choice(self.paths(base))
        if kind < 0.45 and named:
            path = self.chance.choice(named)
        elif kind < 0.6:
            path = b"/"
        if is_new and self.chance.random() < 0.7:
            path = (path.rpartition(b"/")[0] if self.chance.random() < 0.5 else path) + b"/" + self.chance.choice(NEW_NAMES)
        elif self.chance.random() < 0.4:
            path = path.rstrip(b"/") + b"/" + self.chance.choice(NAMES + LONG_NAMES)
        if self.chance.random() < 0.1:
            path = path.rpartition(b"/")[0] or b"/"
        if self.chance.random() < 0.1:
            path = path + b"/"
        return path.lstrip(b"/") or b"/" if self.chance.random() < 0.1 else path or b"\\"

    def look(self, tried: Script) -> tuple[Ran, list[Hashable]]:
        """A run, which is compared with the model. Answers what of each line counts as its reply."""
        served, state = self.volumes.served(tried.base, "run", Stop.INPUT), self.volumes.base(tried.base).state
        states, replies = [state], []
        for line, (reply, state) in zip(tried.lines, spelling.replies(state, tried.lines)):
            replies.append(reply)
            if is_saved(line, reply):
                states.clear()
            states.append(state)
        status = 2 if replies and replies[-1].startswith("bad") else 0
        try:
            ran = served.run({}, tried.text())
            expect("run", f"{status} {''.join(replies)}", f"{ran.status} {ran.output.decode(errors='replace')}")
            look_at_image(served, states)
        finally:
            served.restore()
        return ran, [(shape_of(line), name_of(reply)) for line, reply in zip(tried.lines, replies)]

    def is_tried(self, tried: Script) -> bool:
        return bool(tried.lines)

    def attempt(self, tried: Script) -> None:
        """Tries a script, and keeps it where it shows something new."""
        ran, replies = self.look(tried)
        self.corpus.offer(tried, replies, (tried.base, ran.reads))

    def smaller(self, tried: Script) -> Iterator[Script]:
        """The same with fewer lines: without a half, a quarter, and so on, or a line."""
        length = len(tried.lines)
        while length := length // 2:
            for at in range(0, len(tried.lines), length):
                yield Script(tried.base, tried.lines[:at] + tried.lines[at + length :])

    def spelt(self, tried: Script) -> str:
        lines = [line.decode(errors="backslashreplace") for line in tried.lines]
        return "\n  ".join([f"on the volume `{KINDS[tried.base].name}`:", *lines])


def is_saved(line: bytes, reply: str) -> bool:
    return line.split(b" ")[0] in (b"sync", b"fsync") and reply == "ok\n"


def look_at_image(served: Served, states: list[model.State]) -> None:
    """The image that a run left has the tree of one of these states."""
    found, volume = checked(Patched(served.base, served.sector))
    if volume is None or state_of(volume) not in map(model.dropped, states):
        raise Difference(f"the image behind the run has the tree of no line\nfound:  {found}")


def name_of(reply: str) -> str:
    """`ok`, `bad`, or the name of a refusal."""
    word, _, rest = reply.rstrip("\n").partition(" ")
    return rest if word == "err" else word


def handles_of(lines: Sequence[bytes]) -> int:
    """How many handles lines may have opened."""
    return sum(line.startswith((b"open ", b"create ")) for line in lines)


def named_in(state: model.State) -> Iterator[tuple[bytes, str]]:
    """The paths of what a volume has, and its kinds, the root's first."""
    left = [(b"", model.ROOT)]
    while left:
        path, number = left.pop(0)
        node = state.nodes[number]
        yield path or b"/", node.kind
        left += [(path + b"/" + model.word_of(name).encode(), it) for name, it in node.body.items()] if node.kind == "dir" else []


def paths_of(state: model.State) -> list[bytes]:
    """A hundred of them at most."""
    return [path for path, _ in itertools.islice(named_in(state), 100)]


def files_of(state: model.State) -> list[bytes]:
    return [path for path, kind in itertools.islice(named_in(state), 100) if kind == "file"]


def shape_of(line: bytes) -> Hashable:
    """The call of a line, and how its paths are spelt: with dots, with a slash end, with a long name, how many pieces."""
    call, *words = line.split(b" ")
    paths = [it for it in words if not it.isdigit() and len(it) < 1_100]
    return call, *((b"/." in it, it.endswith(b"/"), len(it) > 60, min(3, it.count(b"/"))) for it in paths)
