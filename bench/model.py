#!/usr/bin/env python3
"""A plain model of a volume: what each line of a script answers, and the state behind it.

    bench/model.py   compares its answers with the replies of crates/lfs_trials, but for the scripts with a bad line

Else it is imported. It is written from what docs/CALLS.md and docs/SCRIPT.md say, and shares nothing with the product: no segment, no
block, no commit. A state is never changed. `step` answers the reply to a line as a list of lines, and the state behind it; `dropped`
is what of a state a mount may find.
"""
import functools
import glob
import os
import re
import sys
from typing import NamedTuple, Optional, Union

CASES = os.path.join(os.path.dirname(os.path.dirname(os.path.realpath(__file__))), "crates/lfs_trials/data")
MOST_BYTES = 8_511_488
MOST_MOVED = 65_536
MOST_ENTRIES = 1_024
MOST_LINKS = 1_000
MOST_HANDLES = 64
MOST_NUMBERS = 4_095
MOST_FOLLOWED = 40
LONGEST_PATH = 1_023
LONGEST_NAMES = (59, 123)
SLOTS = (64, 128)
BLOCK = 512
DIRECT, SINGLE, LEAF = 112, 240, 128
ROOT = 1
# The last version of the layout.
LAST = 3
LIMIT, BASE, META = 47, 720, 7


ZEROS = bytes(BLOCK)


class Body(NamedTuple):
    """The bytes of a file in blocks, of which zeros fill the last: states share the blocks that they have in common."""

    length: int = 0
    blocks: tuple = ()


class Node(NamedTuple):
    """A file with its bytes, a directory with its names, or a link with its text. The form is a directory's."""

    kind: str
    body: Union[Body, dict, bytes]
    form: int = 0

    def size(self):
        if self.kind == "file":
            return self.body.length
        return len(self.body) * (SLOTS[self.form] if self.kind == "dir" else 1)


class State(NamedTuple):
    segments: int
    version: int
    nodes: dict
    handles: dict
    need: int


class Refused(Exception):
    """A call that isn't done, by the name of its refusal."""


def form_of_new(version):
    """The form of the directories that a volume of this version is given."""
    return 0 if version == 1 else 1


def new(segments, version=1):
    root = Node("dir", {}, form_of_new(version))
    return State(segments, version, {ROOT: root}, {}, BASE + cost(root)[2])


def word_of(path):
    """A path, a name or a text as a script has it."""
    return "".join(chr(it) if 0x21 <= it <= 0x7E and it != 0x5C else f"\\{it:02x}" for it in path) or "\\"


def path_of(word):
    parts = word.split("\\")
    return parts[0].encode("latin-1") + b"".join(bytes([int(it[:2], 16)]) + it[2:].encode("latin-1") for it in parts[1:] if it)


def count_of(length):
    """The blocks that so many bytes take."""
    return -(-length // BLOCK)


def part(body, offset, length):
    """The bytes of a file from a place on, at most so many."""
    end, first = min(offset + length, body.length), offset // BLOCK
    return b"".join(body.blocks[first : count_of(end)])[offset - BLOCK * first : max(offset, end) - BLOCK * first]


def cut(body, length):
    """So many of a file's first bytes, filled with zeros."""
    count = count_of(length)
    blocks = body.blocks[:count] + (ZEROS,) * (count - len(body.blocks))
    if length < body.length and length % BLOCK:
        blocks = (*blocks[:-1], blocks[-1][: length % BLOCK].ljust(BLOCK, b"\0"))
    return Body(length, blocks)


def put_bytes(body, offset, what):
    """A file's bytes with others at a place, and zeros in a gap before them."""
    end = offset + len(what)
    body = cut(body, max(body.length, end))
    first, last = offset // BLOCK, count_of(end)
    old, at = b"".join(body.blocks[first:last]), offset - BLOCK * first
    new_bytes = old[:at] + what + old[at + len(what) :]
    blocks = tuple(new_bytes[it : it + BLOCK] for it in range(0, len(new_bytes), BLOCK))
    return Body(body.length, body.blocks[:first] + blocks + body.blocks[last:])


def sum_of(filled):
    """What blocks at these places cost: data blocks, other blocks, and the need of both."""
    single = any(DIRECT <= at < SINGLE for at in filled)
    leaves = {(at - SINGLE) // LEAF for at in filled if at >= SINGLE}
    meta = 1 + single + len(leaves) + bool(leaves)
    return len(filled), meta, len(filled) + META * meta


@functools.lru_cache(maxsize=1_024)
def cost_of_file(body):
    return sum_of([at for at, block in enumerate(body.blocks) if block != ZEROS])


def cost(node):
    """Only blocks of a file may be zeros."""
    return cost_of_file(node.body) if node.kind == "file" else sum_of(range(count_of(node.size())))


def limit(state):
    return LIMIT * state.segments


def put(state, changes):
    """The state with these nodes in the place of theirs. A node that is None goes."""
    nodes, need = dict(state.nodes), state.need
    for number, node in changes.items():
        old = nodes.pop(number, None)
        need += (cost(node)[2] if node else 0) - (cost(old)[2] if old else 0)
        if node:
            nodes[number] = node
    return state._replace(nodes=nodes, need=need)


def put_if_it_fits(state, changes):
    after = put(state, changes)
    if after.need > limit(after):
        raise Refused("NoSpace")
    return after


def names_of(state, number):
    return sum(it == number for node in state.nodes.values() if node.kind == "dir" for it in node.body.values())


def directories_in(state, node):
    return sum(state.nodes[it].kind == "dir" for it in node.body.values())


def links_of(state, number):
    node = state.nodes[number]
    return 2 + directories_in(state, node) if node.kind == "dir" else names_of(state, number)


def above(state, number):
    """The directory that names a directory."""
    return next((at for at, node in state.nodes.items() if node.kind == "dir" and number in node.body.values()), ROOT)


def pieces_of(path):
    """The pieces between slashes, and whether a slash ends the path."""
    if not path:
        raise Refused("NoEntry")
    if len(path) > LONGEST_PATH:
        raise Refused("NameTooLong")
    if 0 in path:
        raise Refused("Inval")
    return [it for it in path.split(b"/") if it], path.endswith(b"/")


def longest_name(state, directory):
    return LONGEST_NAMES[state.nodes[directory].form]


def found(state, directory, name):
    """The number that a directory has under a name."""
    if len(name) > longest_name(state, directory):
        raise Refused("NameTooLong")
    number = state.nodes[directory].body.get(name)
    if number is None:
        raise Refused("NoEntry")
    return number


def walk(state, pieces, slash, follows):
    """The number to which pieces lead from the root."""
    at, pieces, followed = ROOT, list(pieces), 0
    while pieces:
        name = pieces.pop(0)
        if name == b".":
            continue
        if name == b"..":
            at = above(state, at)
            continue
        number = found(state, at, name)
        node = state.nodes[number]
        if node.kind == "dir":
            at = number
        elif node.kind == "file":
            if pieces or slash:
                raise Refused("NotDir")
            return number
        elif not pieces and not slash and not follows:
            return number
        else:
            followed += 1
            if followed > MOST_FOLLOWED:
                raise Refused("Loop")
            slash = slash or not pieces and node.body.endswith(b"/")
            pieces = [it for it in node.body.split(b"/") if it] + pieces
            at = ROOT if node.body.startswith(b"/") else at
    return at


def resolve(state, path, follows=True):
    return walk(state, *pieces_of(path), follows)


def parent(state, path):
    """The directory of a path's last piece, that piece or None, and whether a slash ends the path."""
    pieces, slash = pieces_of(path)
    return walk(state, pieces[:-1], True, True), pieces[-1] if pieces else None, slash


DOTS = (None, b".", b"..")


def old_entry(state, path):
    directory, name, slash = parent(state, path)
    if name in DOTS:
        raise Refused("Perm")
    number = found(state, directory, name)
    if slash and state.nodes[number].kind != "dir":
        raise Refused("NotDir")
    if state.nodes[number].kind == "dir":
        raise Refused("Perm")
    return directory, name, number


def new_entry(state, path, takes_slash=False):
    directory, name, slash = parent(state, path)
    if name in DOTS:
        raise Refused("Exist")
    if len(name) > longest_name(state, directory):
        raise Refused("NameTooLong")
    if name in state.nodes[directory].body:
        raise Refused("Exist")
    if slash and not takes_slash:
        raise Refused("NoEntry")
    if len(state.nodes[directory].body) >= MOST_ENTRIES:
        raise Refused("DirFull")
    return directory, name


def least(taken, first, most, refusal):
    number = next((it for it in range(first, most) if it not in taken), None)
    if number is None:
        raise Refused(refusal)
    return number


def named(state, directory, name, number):
    """A directory with a name more, or, where the number is None, with one less."""
    node = state.nodes[directory]
    body = {key: it for key, it in node.body.items() if key != name}
    if number is not None:
        body[name] = number
    return node._replace(body=body)


def open_file(state, number):
    handle = least(state.handles, 0, MOST_HANDLES, "TooManyOpen")
    return handle, state._replace(handles={**state.handles, handle: number})


def handle_of(state, handle):
    if handle not in state.handles:
        raise Refused("BadHandle")
    return state.handles[handle]


def without_lost(state, number):
    """The state without a node that has no name, unless it is a file that is open."""
    node = state.nodes.get(number)
    if node is None or node.kind == "file" and number in state.handles.values():
        return state
    return state if names_of(state, number) else put(state, {number: None})


def call_open(state, path):
    number = resolve(state, path)
    if state.nodes[number].kind == "dir":
        raise Refused("IsDir")
    handle, after = open_file(state, number)
    return f"ok {handle}", after


def call_create(state, path):
    directory, name = new_entry(state, path)
    least(state.handles, 0, MOST_HANDLES, "TooManyOpen")
    number = least(state.nodes, 1, MOST_NUMBERS + 1, "NoNumber")
    after = put_if_it_fits(state, {number: Node("file", Body()), directory: named(state, directory, name, number)})
    handle, after = open_file(after, number)
    return f"ok {handle}", after


def call_close(state, handle):
    number = handle_of(state, handle)
    handles = {key: it for key, it in state.handles.items() if key != handle}
    return "ok", without_lost(state._replace(handles=handles), number)


def call_pread(state, handle, offset, length):
    body = state.nodes[handle_of(state, handle)].body
    if length > MOST_MOVED:
        raise Refused("Inval")
    return f"ok {part(body, offset, length).hex() or '-'}", state


def call_pwrite(state, handle, offset, what):
    number = handle_of(state, handle)
    body = state.nodes[number].body
    if len(what) > MOST_MOVED:
        raise Refused("Inval")
    if what and offset + len(what) > MOST_BYTES:
        raise Refused("FileTooBig")
    if not what:
        return "ok 0", state
    return f"ok {len(what)}", put_if_it_fits(state, {number: Node("file", put_bytes(body, offset, what))})


def call_fill(state, handle, offset, length, byte):
    return call_pwrite(state, handle, offset, bytes([byte]) * min(length, MOST_MOVED + 1))


def call_truncate(state, handle, length):
    number = handle_of(state, handle)
    if length > MOST_BYTES:
        raise Refused("FileTooBig")
    return "ok", put(state, {number: Node("file", cut(state.nodes[number].body, length))})


def call_mkdir(state, path):
    directory, name = new_entry(state, path, True)
    if links_of(state, directory) >= MOST_LINKS:
        raise Refused("TooManyLinks")
    number = least(state.nodes, 1, MOST_NUMBERS + 1, "NoNumber")
    return "ok", put_if_it_fits(state, {number: Node("dir", {}, form_of_new(state.version)), directory: named(state, directory, name, number)})


def call_link(state, old, path):
    number = old_entry(state, old)[2]
    directory, name = new_entry(state, path)
    if links_of(state, number) >= MOST_LINKS:
        raise Refused("TooManyLinks")
    return "ok", put_if_it_fits(state, {directory: named(state, directory, name, number)})


def call_symlink(state, text, path):
    pieces_of(text)
    directory, name = new_entry(state, path)
    number = least(state.nodes, 1, MOST_NUMBERS + 1, "NoNumber")
    return "ok", put_if_it_fits(state, {number: Node("link", text), directory: named(state, directory, name, number)})


def call_readlink(state, path):
    node = state.nodes[resolve(state, path, False)]
    if node.kind != "link":
        raise Refused("Inval")
    return f"ok {word_of(node.body)}", state


def call_unlink(state, path):
    directory, name, number = old_entry(state, path)
    return "ok", without_lost(put(state, {directory: named(state, directory, name, None)}), number)


def call_rmdir(state, path):
    directory, name, _ = parent(state, path)
    if name is None:
        raise Refused("Busy")
    if name in DOTS:
        raise Refused("Inval")
    number = found(state, directory, name)
    if state.nodes[number].kind != "dir":
        raise Refused("NotDir")
    if state.nodes[number].body:
        raise Refused("NotEmpty")
    return "ok", put(state, {directory: named(state, directory, name, None), number: None})


def is_within(state, directory, number):
    """Whether a directory is that one, or lies in it."""
    while directory not in (number, ROOT):
        directory = above(state, directory)
    return directory == number


def moved_over(state, old, slash, directory, name) -> Optional[int]:
    """The number that a rename takes the name of, or None, where it isn't refused."""
    is_directory = state.nodes[old[2]].kind == "dir"
    if len(name) > longest_name(state, directory):
        raise Refused("NameTooLong")
    if slash and not is_directory:
        raise Refused("NotDir")
    number = state.nodes[directory].body.get(name)
    if number == old[2]:
        return number
    if is_directory and is_within(state, directory, old[2]):
        raise Refused("Inval")
    if number is not None:
        there = state.nodes[number]
        if there.kind == "dir" and not is_directory:
            raise Refused("IsDir")
        if is_directory and there.kind != "dir":
            raise Refused("NotDir")
        if there.kind == "dir" and there.body:
            raise Refused("NotEmpty")
    elif directory != old[0]:
        if len(state.nodes[directory].body) >= MOST_ENTRIES:
            raise Refused("DirFull")
        if is_directory and links_of(state, directory) >= MOST_LINKS:
            raise Refused("TooManyLinks")
    return number


def call_rename(state, path, to):
    from_directory, from_name, from_slash = parent(state, path)
    directory, name, slash = parent(state, to)
    if from_name is None or name is None:
        raise Refused("Busy")
    if from_name in DOTS or name in DOTS:
        raise Refused("Inval")
    number = found(state, from_directory, from_name)
    if from_slash and state.nodes[number].kind != "dir":
        raise Refused("NotDir")
    there = moved_over(state, (from_directory, from_name, number), slash, directory, name)
    if there == number:
        return "ok", state
    after = put(state, {from_directory: named(state, from_directory, from_name, None)})
    after = put(after, {directory: named(after, directory, name, number)})
    if there is not None:
        after = without_lost(after, there)
    if after.need > limit(after):
        raise Refused("NoSpace")
    return "ok", after


def call_stat(state, path, follows=True):
    number = resolve(state, path, follows)
    node = state.nodes[number]
    return f"ok {number} {node.kind} {links_of(state, number)} {node.size()}", state


def call_readdir(state, path):
    node = state.nodes[resolve(state, path)]
    if node.kind != "dir":
        raise Refused("NotDir")
    rows = [f"{word_of(name)} {it} {state.nodes[it].kind}" for name, it in sorted(node.body.items())]
    return [f"ok {len(rows)}", *rows], state


def call_fsync(state, handle):
    handle_of(state, handle)
    return "ok", state


def call_space(state):
    costs = [cost(it) for it in state.nodes.values()]
    return f"ok {sum(it[0] for it in costs)} {sum(it[1] for it in costs)} {state.need} {limit(state)}", state


def head_of(node):
    if node.kind == "dir":
        return "-"
    return word_of(node.body) if node.kind == "link" else part(node.body, 0, 16).hex() or "-"


def call_tree(state):
    counts = {}
    for node in state.nodes.values():
        for it in node.body.values() if node.kind == "dir" else ():
            counts[it] = counts.get(it, 0) + 1
    rows = []
    for directory in sorted(state.nodes):
        entries = state.nodes[directory].body
        for name, it in sorted(entries.items()) if state.nodes[directory].kind == "dir" else ():
            node = state.nodes[it]
            links = links_of(state, it) if node.kind == "dir" else counts[it]
            rows.append(f"{directory} {word_of(name)} {node.kind} {it} {links} {node.size()} {head_of(node)}")
    return [f"ok {len(rows)}", *rows], state


def call_widen(state, path):
    number = resolve(state, path)
    node = state.nodes[number]
    if node.kind != "dir":
        raise Refused("NotDir")
    if state.version == 1:
        raise Refused("Inval")
    return "ok", state if node.form else put_if_it_fits(state, {number: node._replace(form=1)})


def same(state):
    return "ok", state


CALLS = {
    "create": (call_create, path_of),
    "open": (call_open, path_of),
    "close": (call_close, int),
    "pread": (call_pread, int, int, int),
    "pwrite": (call_pwrite, int, int, lambda word: b"" if word == "-" else bytes.fromhex(word)),
    "fill": (call_fill, int, int, int, int),
    "truncate": (call_truncate, int, int),
    "mkdir": (call_mkdir, path_of),
    "link": (call_link, path_of, path_of),
    "symlink": (call_symlink, path_of, path_of),
    "readlink": (call_readlink, path_of),
    "unlink": (call_unlink, path_of),
    "rmdir": (call_rmdir, path_of),
    "rename": (call_rename, path_of, path_of),
    "stat": (call_stat, path_of),
    "lstat": (lambda state, path: call_stat(state, path, False), path_of),
    "readdir": (call_readdir, path_of),
    "fsync": (call_fsync, int),
    "sync": (same,),
    "clean": (same,),
    "space": (call_space,),
    "tree": (call_tree,),
    "version": (lambda state: (f"ok {state.version}", state),),
    "upgrade": (lambda state: ("ok", state._replace(version=max(state.version, 2))),),
    "widen": (call_widen, path_of),
}


def step(state, line):
    """The reply to a line, as a list of lines, and the state behind it."""
    word, *words = line.split(" ")
    call, *kinds = CALLS[word]
    try:
        reply, after = call(state, *(kind(it) for kind, it in zip(kinds, words, strict=True)))
    except Refused as refusal:
        return [f"err {refusal}"], state
    return (reply if isinstance(reply, list) else [reply]), after


def dropped(state):
    """What a mount finds of a state: no handle is open, and files without a name are gone."""
    there = {it for node in state.nodes.values() if node.kind == "dir" for it in node.body.values()}
    lost = {number: None for number in state.nodes if number != ROOT and number not in there}
    return put(state._replace(handles={}), lost)


def texts_of(path):
    """The lines of a script, and of its replies."""
    with open(f"{path}.script", encoding="ascii") as script, open(f"{path}.replies", encoding="ascii") as replies:
        return script.read().splitlines(), replies.read().splitlines()


def answers_as_wanted(path):
    """How many lines a script has, and whether the model answers them as its replies say; nothing of a script with a bad line."""
    lines, wanted = texts_of(path)
    if wanted and wanted[-1].startswith("bad "):
        return None
    segments, version = re.search(r"(?:\.(\d+))?(?:\.v([23]))?$", path).groups()
    state, found = new(int(segments or 64), int(version or 1)), []
    for line in lines:
        reply, state = step(state, line)
        found += reply
    return len(lines), found == wanted


def main():
    paths = sorted(it.removesuffix(".script") for it in glob.glob(f"{CASES}/*.script"))
    outcomes = {path: outcome for path in paths if (outcome := answers_as_wanted(path))}
    differ = [os.path.basename(path) for path, (_, is_same) in outcomes.items() if not is_same]
    print("".join(f"{name} differs\n" for name in differ), end="")
    print(f"{len(outcomes)} scripts, {sum(count for count, _ in outcomes.values())} lines, {len(differ)} differ")
    sys.exit(bool(differ))


if __name__ == "__main__":
    main()
