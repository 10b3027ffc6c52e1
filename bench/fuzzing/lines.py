"""How the lines of a script are spelt, and what the plain model replies to a script."""
import re
from collections.abc import Callable, Iterator, Sequence

import model

MOST_LINE = 140_000
Reader = Callable[[bytes], bool]


def is_number(most: int) -> Reader:
    def reads(word: bytes) -> bool:
        return re.fullmatch(rb"0|[1-9][0-9]{0,19}", word) is not None and int(word) <= most

    return reads


def is_hex(word: bytes) -> bool:
    return re.fullmatch(rb"-|([0-9a-f]{2})+", word) is not None


def is_path(word: bytes) -> bool:
    """Whether this is an escaped word: each byte has one spelling."""
    if word == b"\\":
        return True
    if not re.fullmatch(rb"([\x21-\x5b\x5d-\x7e]|\\[0-9a-f]{2})+", word):
        return False
    return model.word_of(model.path_of(word.decode())).encode() == word


H = LEN = is_number(2**32 - 1)
OFF = is_number(2**64 - 1)
BYTE = is_number(255)
HEX, P = is_hex, is_path
COMMANDS: dict[bytes, tuple[Reader, ...]] = {
    b"create": (P,),
    b"open": (P,),
    b"close": (H,),
    b"pread": (H, OFF, LEN),
    b"pwrite": (H, OFF, HEX),
    b"fill": (H, OFF, LEN, BYTE),
    b"truncate": (H, OFF),
    b"mkdir": (P,),
    b"symlink": (P, P),
    b"widen": (P,),
    b"link": (P, P),
    b"unlink": (P,),
    b"rmdir": (P,),
    b"rename": (P, P),
    b"readlink": (P,),
    b"stat": (P,),
    b"lstat": (P,),
    b"readdir": (P,),
    b"fsync": (H,),
    b"sync": (),
    b"clean": (),
    b"upgrade": (),
    b"space": (),
    b"version": (),
    b"tree": (),
}


def is_line(line: bytes) -> bool:
    command, *words = line.split(b" ")
    readers = COMMANDS.get(command)
    if readers is None or len(readers) != len(words) or len(line) > MOST_LINE:
        return False
    return all(reads(word) for reads, word in zip(readers, words))


def replies(state: model.State, lines: Sequence[bytes]) -> Iterator[tuple[str, model.State]]:
    """The reply to each line and the state behind it, up to the first line that is bad."""
    for number, line in enumerate(lines, 1):
        if not is_line(line):
            yield f"bad {number}\n", state
            return
        reply, state = model.step(state, line.decode())
        yield "".join(f"{row}\n" for row in reply), state
