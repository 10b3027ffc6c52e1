"""Random scripts: the lines of calls whose paths, handles, places and values a seed chooses."""
import random
from typing import NamedTuple


class Words(NamedTuple):
    """Forms of lines, and what stands in them for a path (P), a handle (H), a place in a file (O) and a value (B)."""

    forms: tuple
    paths: tuple
    handles: tuple
    places: tuple
    values: tuple
    # How many lines are chosen, and those that stand before them.
    count: int
    first: tuple = ()


# Each call of the script language. A form that stands there twice comes twice as often.
ALL_CALLS = Words(
    forms=(
        *("create P",) * 3, *("mkdir P",) * 2, *("link P P",) * 2, "symlink P P", "symlink ../d P", *("unlink P",) * 2, "rmdir P",
        *("rename P P",) * 3, *("open P",) * 2, *("close H",) * 2, "pwrite H O 616263", "fill H O 700 B", "fill H O 9000 B", "truncate H O",
        "pread H O 900", "readlink P", "stat P", "lstat P", "readdir P", "fsync H", "sync", "clean", "space", "version", "upgrade", "widen P",
    ),
    paths=(
        "/a", "/b", "/c", "/d", "/d/a", "/d/b", "/d/e", "/d/e/a", "/d/e/f", "/l", "/l/a", "/l/e/", "/d/..", "/d/e/../b", "/", "/g/",
        "/d/a_name_that_is_longer_than_the_fifty_nine_bytes_of_the_first_version",
    ),
    handles=("0", "1", "2", "3"),
    places=("0", "1", "500", "1024", "56000", "58000", "122900", "130000"),
    values=("0", "7", "9", "255"),
    count=100,
)

# A file of 640 blocks, of which some change again, and others for which memory has no room: blocks are written between two commits.
LARGE_FILES = Words(
    forms=(
        "create P", *("open P",) * 2, "close H", "unlink P", "rename P P", *("fill H O 65536 B",) * 5, "sync", *("fill H O 700 B",) * 2,
        "truncate H O", *("pread H O 900",) * 2, "fsync H", "clean", "space",
    ),
    paths=("/a", "/b", "/c"),
    handles=("0", "1", "2"),
    places=("0", "100", "32000", "65536", "131072", "196608", "230000", "262144"),
    values=("0", "7", "9", "11", "255"),
    count=24,
    first=("create /a", *(f"fill 0 {65_536 * at} 65536 {at + 1}" for at in range(5)), "fill 0 60000 9000 6", "create /b"),
)


def chosen(dice, words):
    """A line of one of the forms."""
    choices = {"P": words.paths, "H": words.handles, "O": words.places, "B": words.values}
    return " ".join(dice.choice(choices.get(word, (word,))) for word in dice.choice(words.forms).split(" "))


def lines(dice, words):
    """The lines of a script."""
    return (*words.first, *(chosen(dice, words) for _ in range(words.count)))


def dice_of(seed):
    """What chooses, the same for each seed."""
    return random.Random(seed)
