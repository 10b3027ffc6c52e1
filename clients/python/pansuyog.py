"""Files on a Pansuyog volume, from Python, with the standard library alone.

    from pansuyog import NoEntry, Volume

    with Volume("disk.img") as volume:
        try:
            handle = volume.open("/notes")
        except NoEntry:
            handle = volume.create("/notes")
        volume.pwrite(handle, volume.stat("/notes").size, b"a record\\n")
        volume.sync()

Whole files and folders go in and out by the methods of `Files`:

        volume.append("/notes", b"a record\\n")
        volume.write_file("/day1", b"whole, or not at all")
        volume.write_tree("a folder")
        volume.export("a new folder")

and `file` opens one as Python's own files are, so that what takes such a file takes it:

        with io.TextIOWrapper(volume.file("/days.csv", "a"), encoding="utf-8", newline="") as file:
            csv.writer(file).writerow(["2026-12-01", 42])
        volume.sync()

An archive of tar goes in by `import_tar` and comes out by `export_tar`, and so it does on a command line:

    python3 -m pansuyog import disk.img folder.tar
    python3 -m pansuyog export disk.img folder.tar

Each other method is one call of the volume (docs/CALLS.md). There are two classes, with the same methods:

- `Volume` is the library `libpansuyog_file.so` (docs/LIBRARY.md), in this process. `Volume.over(device)` stands on a device of the caller's
  own in place of an image, by the library `libpansuyog.so`.
- `ProcessVolume` is a child process `lfs run IMAGE`, which answers a line of a script (docs/SCRIPT.md) for each call.

All take `read_only=True`. `make` makes an empty volume, by the library or by the program, and `make_over` one on a device.

A refusal is an exception of the refusal's name: `NoEntry`, `NoSpace`, `Device` and so on. Its text has the call and the cause. What was
acknowledged by `sync` stays through any stop of the device or of the process; what wasn't may be gone at the next mount.

Paths are `str` (taken as UTF-8) or `bytes`. Nothing is saved when the volume is closed: call `sync` before.
"""
import contextlib
import errno
import fcntl
import functools
import io
import os
import stat
import subprocess
import sys
import tempfile
import threading
import time
import types
import warnings
import weakref
from typing import List, NamedTuple

__all__ = ["Calls", "File", "Files", "Volume", "ProcessVolume", "Refused", "ReadOnly", "ChildDied", "BadLine", "Omitted"]
__all__ += ["Entry", "Shape", "Space", "Stat", "TreeRow", "Written", "make", "make_over", "sectors_of"]

# What people are told of a call that is refused, as in crates/lfs_host/src/reason.rt: the reply to a line has the name alone.
_NO_MEMORY = "there isn't enough memory"
_DEVICE = "a read, a write or a sync of it failed"
_UNWRITABLE = "it can't be written"
# What `lfs run` says at its end of a script that doesn't end with a sync.
_UNSAVED = "what was done since the last `sync` isn't saved"
_CALL_TEXTS = {
    "NoEntry": "the volume has nothing of this name",
    "NotDir": "a directory is needed here",
    "IsDir": "this is a directory",
    "Exist": "this is there already",
    "NotEmpty": "the directory has entries",
    "Inval": "an argument isn't taken",
    "NameTooLong": "a path has at most 1023 bytes, and a name 59, or 123 where the format and `widen` let it",
    "Loop": "more than 40 links were to be followed",
    "Perm": "a directory isn't linked or unlinked",
    "Busy": "the root can't be removed or renamed",
    "BadHandle": "no such handle is open",
    "TooManyOpen": "64 handles are open",
    "TooManyLinks": "the object has 1000 links",
    "FileTooBig": "this is past the greatest size of a file",
    "NoSpace": "the volume has no space for this",
    "NoNumber": "the volume has 4095 objects",
    "DirFull": "the directory has 1024 entries",
    "NoMemory": _NO_MEMORY,
    "Device": _DEVICE,
    "Halted": f"{_UNWRITABLE}: {_DEVICE}",
    "Stuck": "too few of its segments are clean",
    "Worn": "it was changed too often to be changed again",
}
# The other names, with which a volume isn't made or mounted. Standard error says why.
_VOLUME_NAMES = ["Image", "TooSmall", "NoCheckpoint", "Damaged"]


class Refused(Exception):
    """A call that the volume refused. Its classes have the names of docs/CALLS.md, as `NoEntry`.

    `needs_restart` tells whether the machine is to be restarted before the next mount, since the system's cache may hold what the medium
    hasn't got: so it is of `Device` and `Halted`, but where a write failed for want of room alone."""

    needs_restart = False


class ReadOnly(Refused):
    """A call that would change a volume which was opened by `read_only=True`. It did nothing."""


class ChildDied(Exception):
    """The child ended, so no call is answered any more; the text says how it ended."""


class BadLine(Exception):
    """The program doesn't know the line: its version has no such call. It has ended, and what wasn't synced may be gone."""


class Omitted(UserWarning):
    """A name that is left out, since a path to it is longer than any call takes, or since no volume has such a thing."""


class Stat(NamedTuple):
    """What `stat` tells of a node: its number, its kind (`file`, `dir` or `link`), its links, and its size in bytes."""

    number: int
    kind: str
    links: int
    size: int


class Entry(NamedTuple):
    """What `readdir` tells of an entry: its name, and the number and kind of what it gives."""

    name: bytes
    number: int
    kind: str


class Space(NamedTuple):
    """The volume's data blocks, its other blocks, and the need that they make, which is at most the limit."""

    data: int
    meta: int
    need: int
    limit: int


class Shape(NamedTuple):
    """What a volume is made with: its segments, its format, and how many sectors of 512 bytes a unit and a segment have."""

    segments: int
    format: int = 1
    unit: int = 1
    segment_sectors: int = 64


class TreeRow(NamedTuple):
    """An entry of a directory, with what it gives and the first bytes of a file or the text of a link."""

    directory: int
    name: bytes
    kind: str
    number: int
    links: int
    size: int
    head: bytes


class Written(NamedTuple):
    """What `write_tree` or `import_tar` put: how many files, and their bytes; and what it left out, by its path on the host or its name in
    the archive."""

    files: int
    size: int
    omitted: List[str]


_REFUSALS = {
    name: type(name, (Refused,), {"__module__": __name__, "__doc__": f"The refusal {name} of docs/CALLS.md."})
    for name in [*_CALL_TEXTS, *_VOLUME_NAMES]
}
globals().update(_REFUSALS)
__all__ += _REFUSALS
for _name in ("Device", "Halted"):
    _REFUSALS[_name].needs_restart = True


def _refusal(name, text):
    """The exception of a refusal. One that this client doesn't know is a plain `Refused`."""
    return _REFUSALS[name](text) if name in _REFUSALS else Refused(f"{text} ({name})")


def _bytes(text):
    return text.encode() if isinstance(text, str) else bytes(text)


def _octets(data):
    """The data of a call, as bytes. What has none, as a `str`, is an error before anything is called."""
    if isinstance(data, bytes):
        return data
    try:
        return memoryview(data).tobytes()
    except TypeError:
        raise TypeError(f"data has to be bytes, and this is {type(data).__name__}") from None


def _escape(text):
    """The one spelling of these bytes as an escaped word."""
    word = "".join(chr(c) if 0x21 <= c <= 0x7E and c != 0x5C else f"\\{c:02x}" for c in _bytes(text))
    return word or "\\"


def _unescape(word):
    if word == "\\":
        return b""
    first, *rest = word.split("\\")
    return first.encode() + b"".join(bytes([int(part[:2], 16)]) + part[2:].encode() for part in rest)


def _hex(data):
    return bytes(data).hex() or "-"


def _number(value, bits):
    """A number of a call. One that no call can have is an error before anything is called."""
    if not 0 <= value < 1 << bits:
        raise ValueError(f"{value} is not from 0 to 2^{bits} - 1")
    return int(value)


def _unhex(word):
    return b"" if word == "-" else bytes.fromhex(word)


def _line(name, arguments):
    """A call as a line of a script."""
    spelt = _hex if name == "pwrite" else _escape
    return " ".join([name, *(spelt(it) if isinstance(it, bytes) else str(it) for it in arguments)])


def _refused_call(name, arguments, refusal, text=None):
    """The exception of a call that is refused."""
    return _refusal(refusal, f"{_line(name, arguments)[:80]}: {text or _CALL_TEXTS.get(refusal, refusal)}")


# The calls that a volume which is only read refuses. Those that save have nothing to save.
_CHANGES = frozenset(
    "create pwrite fill truncate mkdir symlink link unlink rmdir rename clean clean_once upgrade widen record_begin record_line record_save".split()
)


def _refuse_change(name, arguments):
    """Refuses a call that would change a volume which is only read."""
    if name in _CHANGES:
        raise ReadOnly(f"{_line(name, arguments)[:80]}: the volume was opened to be read alone")


def _head(kind, word):
    return _unescape(word) if kind == "link" else _unhex(word)


def _started(lfs, words):
    """The program, begun on these words."""
    try:
        return subprocess.Popen([lfs, *words], stdin=subprocess.PIPE, stdout=subprocess.PIPE, stderr=subprocess.PIPE)
    except FileNotFoundError:
        where = "there" if os.path.dirname(lfs) else "in PATH"
        raise FileNotFoundError(f'the program {lfs} isn\'t {where}; pass ProcessVolume(image, lfs="../lfs")') from None


def _cause(errors, reply, but=None):
    """What standard error says, without the program's name and without lines that have some words, or else the reply."""
    lines = [line for line in errors.decode(errors="replace").splitlines() if line and not (but and but in line)]
    return "; ".join(line[5:] if line.startswith("lfs: ") else line for line in lines) or reply


def make(image, segments, lfs=None, format=1, *, unit=1, library=None, force=False, reserve=False):
    """Makes an empty volume in an image file: a multiple of 8 segments of 32 KiB, from 64 to 1,024. A name in it has up to 59 bytes in format
    1, and up to 123 in later ones. The library makes it, or else the program whose path is `lfs`.

    In format 3 a unit has 1, 2, 4, 8, 16, 32 or 64 sectors of 512 bytes, and a commit ends on a whole unit. For a medium that writes units of
    several sectors, and may lose all of them in a stop, make a volume whose unit is a multiple of theirs. In formats 1 and 2 a unit is a
    sector.

    Where the image is there already, also where it is empty, this is refused as `Image`. With `force=True` the volume is made in its place,
    and an earlier content is gone. With `reserve=True` each sector is written first, so that the disk has room for all of them: else the
    image is sparse, and a disk that is full makes a later call `Halted`.

    A new image gets its name once the volume is made and synced: after any stop it is there whole or not at all. Until then it stands beside
    as IMAGE.lfs-make, and what a stop leaves of that the next `make` begins anew. Where a file can't have two names, as on vfat and exFAT, a
    stop may leave an empty file of the image's name too."""
    shape = Shape(segments, format, unit)
    if lfs is None:
        _make_by_library(image, shape, reserve, force, library)
    else:
        _make_by_program(image, shape, lfs, reserve, force)


def _make_by_program(image, shape, lfs, reserve, force):
    if not force:
        with _told_of(image):
            _refuse_present(image, os.path.realpath(os.fsdecode(image)))
    words = [*["--force"] * force, *["--reserve"] * reserve]
    # The program takes a unit in format 3 alone.
    if shape.format == 3 or shape.unit != 1:
        words += ["--unit", str(_SECTOR * shape.unit)]
    with _started(lfs, ["mkfs", os.fspath(image), "--segments", str(shape.segments), "--format", str(shape.format), *words]) as child:
        output, errors = child.communicate()
    reply = output.decode(errors="replace").strip()
    if reply.startswith("err "):
        raise _refusal(reply.split()[1], _cause(errors, reply))
    if child.returncode != 0:
        raise ChildDied(f"lfs mkfs ended with status {child.returncode}: {_cause(errors, reply)}")


def make_over(device, segments, format=1, *, unit=1, library=None):
    """Makes an empty volume on a device of the caller's own, as `Volume.over` takes it, whatever it holds. `unit` is as `make` has it. The
    device is told writes of single sectors, whatever the unit is."""
    shape = Shape(segments, format, unit)
    functions = _library(_ORDERS, library)
    _sectors_of(_DEVICE_NAME, shape, functions)
    with contextlib.closing(_OverDevice(device, functions)) as made:
        made.format(shape)


def sectors_of(segments, format=1, *, unit=1, library=None):
    """How many sectors of 512 bytes a volume takes that `make_over` makes with these numbers. `Inval` where there is no such volume."""
    return _sectors_of(_DEVICE_NAME, Shape(segments, format, unit), _library(_ORDERS, library))


class Calls:
    """The calls of a volume. A subclass has `_call`, which makes a call by its name, with numbers, paths and data, and gives its answer."""

    def _call(self, name, *arguments):
        raise NotImplementedError

    def create(self, path):
        """Makes a file and opens it: its handle."""
        return self._call("create", _bytes(path))

    def open(self, path):
        """Opens a file: its handle."""
        return self._call("open", _bytes(path))

    def close_handle(self, handle):
        """Closes a handle. A file without a name goes with its last one."""
        self._call("close", _number(handle, 32))

    def pread(self, handle, offset, length):
        """At most `length` bytes, 65,536 at most, from `offset` on."""
        return self._call("pread", _number(handle, 32), _number(offset, 64), _number(length, 32))

    def pwrite(self, handle, offset, data):
        """Writes bytes, 65,536 at most, from `offset` on: how many were written. More are refused, as `Inval`."""
        # One byte too many is refused as any number of them, and fits a line.
        return self._call("pwrite", _number(handle, 32), _number(offset, 64), _octets(data)[: _LONGEST_TRANSFER + 1])

    def fill(self, handle, offset, length, byte):
        """Writes `length` times the same byte."""
        return self._call("fill", _number(handle, 32), _number(offset, 64), _number(length, 32), _number(byte, 8))

    def truncate(self, handle, length):
        """Gives a file this length: it is cut, or zeros are added."""
        self._call("truncate", _number(handle, 32), _number(length, 64))

    def mkdir(self, path):
        """Makes a directory."""
        self._call("mkdir", _bytes(path))

    def symlink(self, text, path):
        """Makes a symbolic link with this text."""
        self._call("symlink", _bytes(text), _bytes(path))

    def readlink(self, path):
        """The text of a link."""
        return self._call("readlink", _bytes(path))

    def link(self, path, name):
        """Gives what stands at a path another name."""
        self._call("link", _bytes(path), _bytes(name))

    def unlink(self, path):
        """Takes away the name of a file or of a link. An open file stays until its handles are closed."""
        self._call("unlink", _bytes(path))

    def rmdir(self, path):
        """Removes a directory without entries."""
        self._call("rmdir", _bytes(path))

    def rename(self, path, name):
        """Gives what stands at a path another name, in one step. What that name gave before loses it, as by `unlink` or `rmdir`."""
        self._call("rename", _bytes(path), _bytes(name))

    def stat(self, path):
        """What stands at a path."""
        return self._call("stat", _bytes(path))

    def lstat(self, path):
        """The same, where a last link isn't followed."""
        return self._call("lstat", _bytes(path))

    def readdir(self, path):
        """Each entry of one directory."""
        return self._call("readdir", _bytes(path))

    def fsync(self, handle):
        """Saves all that was done, as `sync`, through an open handle."""
        self._call("fsync", _number(handle, 32))

    def sync(self):
        """Saves all that was done: no stop takes it back."""
        self._call("sync")

    def clean(self):
        """Cleans segments until a quarter of them is clean."""
        self._call("clean")

    def space(self):
        """The blocks that the files take, and the need and its limit."""
        return self._call("space")

    def version(self):
        """The version of the volume's layout, 1 to 3: the format that it has."""
        return self._call("version")

    def upgrade(self):
        """Gives a volume of format 1 format 2. Directories that are made from then on take names of up to 123 bytes."""
        self._call("upgrade")

    def widen(self, path):
        """Lets a directory of a volume of format 2 or later take such names too. It then has twice as many bytes."""
        self._call("widen", _bytes(path))

    def tree(self):
        """Each entry of each directory."""
        return self._call("tree")


# The name under which a file stands until it is whole, in the directory that is to have it. `lfs put` has the same.
_UNFINISHED = b".lfs-put"
# Bytes of a path or of a link's text, of a name in a directory of form 0 and of form 1, of a file, and of one `pread` or `pwrite`.
_LONGEST_PATH = 1_023
_LONGEST_NAME, _LONGEST_NAME_IN_FORM_1 = 59, 123
_LONGEST_FILE = 8_511_488
_LONGEST_TRANSFER = 65_536
# What `write_tree` puts between two syncs.
_SYNC_EACH = 64 << 20


def _check_text(path):
    """Refuses a path by its text alone, in the order of the calls."""
    if not path:
        raise _refusal("NoEntry", "a path is empty")
    if len(path) > _LONGEST_PATH:
        raise _refusal("NameTooLong", f"a path has {len(path)} bytes")
    if b"\0" in path:
        raise _refusal("Inval", "a path has a zero byte")


def _beside(path):
    """The path of the unfinished file of a path. What no file is put at is refused by its text, as `lfs put` does."""
    _check_text(path)
    trimmed = path.rstrip(b"/")
    shown = _escape(path)
    if not trimmed:
        raise _refusal("Busy", f"{shown}: {_CALL_TEXTS['Busy']}")
    above, slash, name = trimmed.rpartition(b"/")
    if name in (b".", b"..", _UNFINISHED):
        raise _refusal("Inval", f"{shown}: no file is put under this name")
    if trimmed != path:
        raise _refusal("NotDir", f"{shown}: {_CALL_TEXTS['NotDir']}")
    return above + slash + _UNFINISHED


def _below(path, name):
    return path.rstrip(b"/") + b"/" + name


def _leave_out(shown, why):
    warnings.warn(f"{shown}: {why}, so it is left out", Omitted, stacklevel=3)


def _is_reached(path):
    """Whether a call takes a path. A rename of a directory may make one that none takes, which a warning names."""
    if len(path) <= _LONGEST_PATH:
        return True
    _leave_out(_escape(path), f"a path has at most {_LONGEST_PATH} bytes, and this one {len(path)}")
    return False


class _Put(NamedTuple):
    """What is to be put at a path: a `file` or a `dir` of the host, or a `link` with its text."""

    kind: str
    source: bytes
    path: bytes


def _check_put(it, longest):
    """Refuses what no call puts, in a directory whose names have at most so many bytes."""
    above, _, name = it.path.rpartition(b"/")
    shown = _escape(it.path)
    if name == _UNFINISHED:
        raise _refusal("Inval", f"{shown}: nothing is put under this name")
    if len(name) > longest:
        raise _refusal("NameTooLong", f"{shown}: a name has at most {longest} bytes here, and this one {len(name)}")
    if it.kind == "link" and len(it.source) > _LONGEST_PATH:
        raise _refusal("NameTooLong", f"{shown}: the text of a link has at most {_LONGEST_PATH} bytes, and this one {len(it.source)}")
    needed = len(_below(above, name if it.kind == "dir" else max(name, _UNFINISHED, key=len)))
    if needed > _LONGEST_PATH:
        raise _refusal("NameTooLong", f"{shown}: a path has at most {_LONGEST_PATH} bytes, and this one needs {needed}")


_NO_SUCH_THING = "it is neither a file, a folder nor a link"


def _below_folder(name):
    """What a name in an archive is below the folder that the archive is put into, or nothing where it may lead out of that."""
    parts = [part for part in name.encode(errors="surrogateescape").split(b"/") if part not in (b"", b".")]
    return None if b".." in parts else b"/".join(parts)


def _put_of_member(member, path):
    """What is to be put of a member of an archive into a directory, or why it is left out. A further name of a file has another path of the
    volume as its source."""
    name, source = _below_folder(member.name), member.linkname.encode(errors="surrogateescape")
    if member.islnk():
        source = _below_folder(member.linkname)
    if name is None or source is None:
        return "a name of it has a piece `..`"
    kinds = {"dir": member.isdir(), "link": member.issym(), "name": member.islnk(), "file": member.isreg()}
    kind = next((kind for kind in kinds if kinds[kind]), None)
    if kind is None:
        return _NO_SUCH_THING
    return _Put(kind, _below(path, source) if kind == "name" else source, _below(path, name))


class _Saving:
    """Counts what is put into a volume, and syncs behind each so many bytes."""

    def __init__(self, volume, sync_each):
        self._volume, self._sync_each, self._saved, self.files, self.size = volume, sync_each, 0, 0, 0

    def count(self, size):
        self.files, self.size = self.files + 1, self.size + size
        if self.size - self._saved >= self._sync_each:
            self._volume.sync()
            self._saved = self.size


def _together(method):
    """A method whose calls belong together: where threads share a volume, no call of another one comes between them."""

    @functools.wraps(method)
    def made(self, *arguments):
        with self._alone():
            return method(self, *arguments)

    return made


# The ways to open a file, and whether they read and write.
_MODES = {"r": (True, False), "w": (False, True), "x": (False, True), "a": (False, True)}


def _mode(mode):
    """The letter of a mode, and whether it both reads and writes."""
    letter = mode.replace("b", "", 1).replace("+", "", 1)
    if "t" in mode:
        raise ValueError(f"a file of a volume has bytes, and its mode is {mode!r}: io.TextIOWrapper(volume.file(..)) has text")
    if letter not in _MODES:
        raise ValueError(f"the mode {mode!r} is none of r, w, x and a, with or without b and +")
    return letter, "+" in mode


class File(io.RawIOBase):
    """An open file of a volume, with a position, as Python's own are that `open` gives with `buffering=0`. `Files.file` opens it.

    `read` and `write` take any number of bytes, and do all of it, so nothing has to be done again by who calls. A `write` of more than 65,536
    bytes is several calls: where a later one is refused, what was written before stands, and the position is behind it. Nothing is saved
    before `save`, or `sync` of the volume."""

    def __init__(self, volume, handle, name, letter, both):
        super().__init__()
        self._volume, self._handle, self._position, self._is_appended = volume, handle, 0, letter == "a"
        # The size as it was last, which is looked at first where it is wanted.
        self._last_size = 0
        self._reads, self._writes = (True, True) if both else _MODES[letter]
        self.name, self.mode = name, letter + "b" + "+" * both
        if self._is_appended:
            self._position = self._size()

    def __repr__(self):
        return f"<pansuyog.File name={self.name!r} mode={self.mode!r}{' closed' * self.closed}>"

    def readable(self):
        return self._reads

    def writable(self):
        return self._writes

    def seekable(self):
        return True

    def _check(self, is_taken=True, what=""):
        if self.closed:
            raise ValueError("the file is closed")
        if not is_taken:
            raise io.UnsupportedOperation(f"the file {self.name!r} isn't opened to {what}: its mode is {self.mode!r}")

    def readinto(self, buffer):
        data = self.read(memoryview(buffer).nbytes)
        memoryview(buffer).cast("B")[: len(data)] = data
        return len(data)

    def read(self, size=-1):
        """So many bytes from the position on, or all where none are told. They are fewer where the file ends."""
        self._check(self._reads, "read")
        most = _LONGEST_FILE if size is None or size < 0 else size
        data = self._volume._read_from(self._handle, self._position, most)
        self._position += len(data)
        return data

    def readall(self):
        return self.read()

    def write(self, data):
        """Writes all bytes at the position, or behind the end where the mode is `a`: how many."""
        self._check(self._writes, "write")
        data = _octets(data)
        with self._volume._alone():
            if self._is_appended and data:
                self._position = self._size()
            for start in range(0, len(data), _LONGEST_TRANSFER):
                self._position += self._volume.pwrite(self._handle, self._position, data[start : start + _LONGEST_TRANSFER])
                self._last_size = max(self._last_size, self._position)
        return len(data)

    def seek(self, offset, whence=os.SEEK_SET):
        """Goes to a position: how many bytes are before it. One behind the end is taken, and a gap that a write leaves is zeros."""
        self._check()
        if whence not in (os.SEEK_SET, os.SEEK_CUR, os.SEEK_END):
            raise ValueError(f"{whence} is none of 0, 1 and 2")
        if whence != os.SEEK_SET:
            offset += self._position if whence == os.SEEK_CUR else self._size()
        if offset < 0:
            raise ValueError("a position is before the file's beginning")
        self._position = offset
        return offset

    def tell(self):
        self._check()
        return self._position

    def truncate(self, size=None):
        """Gives the file this size, or that of the position: it is cut, or zeros are added. The position stays."""
        self._check(self._writes, "write")
        size = self._position if size is None else size
        self._volume.truncate(self._handle, size)
        return size

    def save(self):
        """Saves all that was done on the volume, as `fsync`. What a buffer or a text above this file holds still isn't written: `flush` that
        first."""
        self._check()
        self._volume.fsync(self._handle)

    def close(self):
        if self.closed:
            return
        super().close()
        # A volume that is closed has no handles.
        with contextlib.suppress(ValueError):
            self._volume.close_handle(self._handle)

    def __del__(self):
        # This may come within a call of the volume, where no other one is made: the next file that is opened gives the handle back.
        if not self.closed:
            self._volume._forgotten.append(self._handle)
            super().close()
            warnings.warn(f"the file {self.name!r} was never closed", ResourceWarning)

    def _size(self):
        """The size. No call tells that of a handle, so it is found by bytes that are there and that aren't."""
        if self._has(self._last_size - 1) and not self._has(self._last_size):
            return self._last_size
        low, high = 0, _LONGEST_FILE
        while low < high:
            middle = (low + high) // 2
            low, high = (middle + 1, high) if self._has(middle) else (low, middle)
        self._last_size = low
        return low

    def _has(self, offset):
        return offset < 0 or len(self._volume.pread(self._handle, offset, 1)) == 1


class Files(Calls):
    """Whole files and folders, and files as Python's own, over the calls alone."""

    def __init__(self):
        # Handles of files that nobody closed, and nobody has any more.
        self._forgotten = []

    def _alone(self):
        """Keeps other threads out, where threads may share the volume."""
        return contextlib.nullcontext()

    @_together
    def file(self, path, mode="r"):
        """Opens a file as Python's own files are: a `File`, which is an `io.RawIOBase`. The mode is `r`, `w`, `x` or `a`, as of `open`, with `+`
        where the file is both read and written. It has bytes, with and without `b`: `io.TextIOWrapper` over it has text, and
        `io.BufferedReader` and `io.BufferedWriter` make few calls of many small ones.

        A file that is opened by `w` is empty at once, and then as `sync` saves it: `write_file` puts a whole file or nothing."""
        letter, both = _mode(mode)
        while self._forgotten:
            with contextlib.suppress(_REFUSALS["BadHandle"]):
                self.close_handle(self._forgotten.pop())
        return File(self, self._opened(path, letter), path, letter, both)

    def _opened(self, path, letter):
        """The handle of a file that is opened in a mode of this letter."""
        try:
            return self.create(path) if letter == "x" else self._opened_there(path, letter)
        except _REFUSALS["NoEntry"]:
            if letter in "rx":
                raise
        return self.create(path)

    def _opened_there(self, path, letter):
        handle = self.open(path)
        if letter == "w":
            try:
                self.truncate(handle, 0)
            except BaseException:
                with contextlib.suppress(Exception):
                    self.close_handle(handle)
                raise
        return handle

    @_together
    def read(self, path):
        """All bytes of a file."""
        with self._handle(self.open(path)) as handle:
            return self._read_from(handle, 0, _LONGEST_FILE)

    @_together
    def _read_from(self, handle, offset, most):
        """So many bytes of an open file from an offset on, or fewer where it ends."""
        pieces, end = [], offset + most
        while offset < end:
            pieces.append(self.pread(handle, offset, min(end - offset, _LONGEST_TRANSFER)))
            offset += len(pieces[-1])
            if len(pieces[-1]) < _LONGEST_TRANSFER:
                break
        return b"".join(pieces)

    @_together
    def write_file(self, path, data):
        """Makes these the bytes of a file, synced, as `lfs put` does: after any stop the old file is there or the new one."""
        path, data = _bytes(path), _octets(data)
        unfinished = _beside(path)
        self._refuse_directory(path)
        with self._finishing(unfinished):
            self._write_new(unfinished, data)
            self.sync()
            self.rename(unfinished, path)
            self.sync()

    @_together
    def append(self, path, record):
        """Writes a record behind the end of a file, which is made where it isn't there, and syncs: where it began. More than 65,536 bytes are
        refused, as `Inval`."""
        path, record = _bytes(path), _octets(record)
        if len(record) > _LONGEST_TRANSFER:
            raise _refusal("Inval", f"append {_escape(path)}: a record has at most {_LONGEST_TRANSFER} bytes, and this one {len(record)}")
        try:
            handle = self.open(path)
        except _REFUSALS["NoEntry"]:
            handle = self.create(path)
        with self._handle(handle):
            offset = self.stat(path).size
            self.pwrite(handle, offset, record)
            self.sync()
        return offset

    def walk(self, path="/"):
        """Each directory from a path on, above those in it: its path, the names of its directories, and those of its files and links. One
        whose path has more than 1,023 bytes is left out with a warning, `Omitted`."""
        path = _bytes(path)
        entries = self.readdir(path)
        directories = [entry.name for entry in entries if entry.kind == "dir"]
        yield path, directories, [entry.name for entry in entries if entry.kind != "dir"]
        for below in [_below(path, name) for name in directories]:
            if _is_reached(below):
                yield from self.walk(below)

    def write_tree(self, folder, path="/", *, sync_each=_SYNC_EACH):
        """Puts what is in a folder of the host into a directory: files, links as links, and directories where they aren't there yet. It syncs
        behind each so many bytes, and at the end. After any stop each file is there whole, or as it was before, or not at all.

        A name that no call takes is refused before anything is put. What is neither a file, a folder nor a link, as a FIFO, is left out: a
        warning, `Omitted`, names it, and so does the answer."""
        path, omitted = _bytes(path), []
        # It has to be a directory.
        self.readdir(path)
        plan = list(self._planned(os.fsencode(folder), path, self._longest_name(path), omitted))
        for shown in omitted:
            _leave_out(shown, _NO_SUCH_THING)
        saving = _Saving(self, sync_each)
        with self._synced():
            for it in plan:
                if it.kind == "file":
                    with open(it.source, "rb") as file:
                        saving.count(self._put_bytes(it.path, file))
                else:
                    self._put_other(it)
        return Written(saving.files, saving.size, omitted)

    def import_tar(self, file, path="/", *, sync_each=_SYNC_EACH):
        """Puts what is in an archive of tar into a directory, as `write_tree` does: files, links, directories, and further names of a file. The
        archive is a file that is open for reading, packed as `tarfile` takes it or not. It is read once, from its beginning to its end.

        What is none of these is left out, and so is a name with `..` in it: a warning, `Omitted`, names it, and so does the answer. What is
        refused later leaves what was put before, synced."""
        import tarfile

        path, omitted = _bytes(path).rstrip(b"/") + b"/", []
        # It has to be a directory.
        self.readdir(path)
        saving = _Saving(self, sync_each)
        with self._synced(), tarfile.open(fileobj=file, mode="r|*", encoding="utf-8") as archive:
            for member in archive:
                it = _put_of_member(member, path)
                if isinstance(it, str):
                    omitted.append(member.name)
                    _leave_out(member.name, it)
                elif it.path != path:
                    self._make_directories(it.path.rpartition(b"/")[0])
                    self._put_member(it, archive, member, saving)
        return Written(saving.files, saving.size, omitted)

    def _put_member(self, it, archive, member, saving):
        if it.kind == "file":
            with archive.extractfile(member) as file:
                saving.count(self._put_bytes(it.path, file))
        elif it.kind == "name":
            self._put_name(it.source, it.path)
        else:
            self._put_other(it)

    def export_tar(self, file, path="/"):
        """Writes an archive of tar with all that is below a directory to a file that is open for writing: how many files, and how many bytes.
        Several names of one file stay so. What has a path of more than 1,023 bytes is left out with a warning, `Omitted`. The time of each
        member is that of the export, since a volume has no times."""
        import tarfile

        above, first, files, size, now = _bytes(path).rstrip(b"/") + b"/", {}, 0, 0, int(time.time())
        with tarfile.open(fileobj=file, mode="w|", format=tarfile.GNU_FORMAT, encoding="utf-8") as archive:
            for below in self._all_below(above):
                member, data = self._member(below, tarfile.TarInfo(below[len(above) :].decode(errors="surrogateescape")), first)
                member.mtime = now
                archive.addfile(member, None if data is None else io.BytesIO(data))
                files, size = files + (data is not None), size + member.size
        return files, size

    def _all_below(self, path):
        """Each path below a directory, a directory's before those below it."""
        for entry in self.readdir(path):
            below = _below(path, entry.name)
            if _is_reached(below):
                yield below
                if entry.kind == "dir":
                    yield from self._all_below(below)

    @_together
    def _member(self, path, member, first):
        """A member of an archive, by what stands at a path, with the bytes of a file. The first name of a file with several is kept."""
        import tarfile

        told, data = self.lstat(path), None
        member.mode = {"file": 0o644, "dir": 0o755, "link": 0o777}[told.kind]
        if told.kind == "dir":
            member.type = tarfile.DIRTYPE
        elif told.kind == "link":
            member.type, member.linkname = tarfile.SYMTYPE, self.readlink(path).decode(errors="surrogateescape")
        elif told.links > 1 and first.setdefault(told.number, member.name) != member.name:
            member.type, member.linkname = tarfile.LNKTYPE, first[told.number]
        else:
            data = self.read(path)
            member.size = len(data)
        return member, data

    def export(self, folder, path="/"):
        """Makes a new folder of the host, with all that is below a directory, links as links: how many files, and how many bytes. What has a
        path of more than 1,023 bytes is left out with a warning, `Omitted`."""
        files, size = 0, 0
        folder, path = os.fsencode(folder), _bytes(path)
        os.mkdir(folder)
        for entry in self.readdir(path):
            inner, name = _below(path, entry.name), os.path.join(folder, entry.name)
            if not _is_reached(inner):
                continue
            if entry.kind == "dir":
                more_files, more_bytes = self.export(name, inner)
                files, size = files + more_files, size + more_bytes
            elif entry.kind == "link":
                os.symlink(self.readlink(inner), name)
            else:
                data = self.read(inner)
                with open(name, "xb") as file:
                    file.write(data)
                files, size = files + 1, size + len(data)
        return files, size

    @contextlib.contextmanager
    def _handle(self, handle):
        """Closes a handle in the end. Where a call fails before, that one is told."""
        try:
            yield handle
        except BaseException:
            with contextlib.suppress(Exception):
                self.close_handle(handle)
            raise
        self.close_handle(handle)

    @contextlib.contextmanager
    def _synced(self):
        """Syncs in the end, also what was done before a failure, as far as the volume lets it."""
        try:
            yield
        except BaseException:
            with contextlib.suppress(Exception):
                self.sync()
            raise
        self.sync()

    def _refuse_directory(self, path):
        try:
            kind = self.lstat(path).kind
        except _REFUSALS["NoEntry"]:
            return
        if kind == "dir":
            raise _refusal("IsDir", f"{_escape(path)}: {_CALL_TEXTS['IsDir']}")

    def _remove_left(self, path):
        try:
            self.unlink(path)
        except _REFUSALS["NoEntry"]:
            pass

    @contextlib.contextmanager
    def _finishing(self, unfinished):
        """Lets something be put under another name first. A stop may have left that, and where this is refused or fails it is removed, as far
        as the volume lets it."""
        self._remove_left(unfinished)
        try:
            yield
        except BaseException:
            for call in (lambda: self.unlink(unfinished), self.sync):
                with contextlib.suppress(Exception):
                    call()
            raise

    def _write_new(self, path, data):
        with self._handle(self.create(path)) as handle:
            for offset in range(0, len(data), _LONGEST_TRANSFER):
                self.pwrite(handle, offset, data[offset : offset + _LONGEST_TRANSFER])

    def _longest_name(self, path):
        """How many bytes a name in a directory may have."""
        try:
            self.lstat(_below(path, b"n" * (_LONGEST_NAME + 1)))
        except _REFUSALS["NameTooLong"]:
            return _LONGEST_NAME
        except _REFUSALS["NoEntry"]:
            pass
        return _LONGEST_NAME_IN_FORM_1

    def _longest_name_in(self, path):
        """The same of a directory that may have to be made first."""
        try:
            kind = self.lstat(path).kind
        except _REFUSALS["NoEntry"]:
            return _LONGEST_NAME if self.version() == 1 else _LONGEST_NAME_IN_FORM_1
        if kind != "dir":
            raise _refused_call("mkdir", (path,), "Exist")
        return self._longest_name(path)

    def _planned(self, folder, path, longest, omitted):
        """All that is below a folder of the host, as it is to be put into a directory whose names have at most so many bytes."""
        with os.scandir(folder) as entries:
            for entry in sorted(entries, key=lambda it: it.name):
                it = self._planned_entry(entry, _below(path, entry.name))
                if it is None:
                    omitted.append(os.fsdecode(entry.path))
                    continue
                _check_put(it, longest)
                yield it
                if it.kind == "dir":
                    yield from self._planned(it.source, it.path, self._longest_name_in(it.path), omitted)

    @staticmethod
    def _planned_entry(entry, path):
        if entry.is_symlink():
            return _Put("link", os.readlink(entry.path), path)
        if entry.is_dir():
            return _Put("dir", entry.path, path)
        return _Put("file", entry.path, path) if entry.is_file() else None

    @_together
    def _put_bytes(self, path, file):
        """Puts the bytes of a file of the host, and doesn't sync: how many. A stop leaves no later call without those before it."""
        # One byte too many is refused as any number of them.
        data = file.read(_LONGEST_FILE + 1)
        unfinished = _beside(path)
        self._refuse_directory(path)
        with self._finishing(unfinished):
            self._write_new(unfinished, data)
            self.rename(unfinished, path)
        return len(data)

    @_together
    def _put_name(self, path, name):
        """Gives what stands at a path another name, in the place of a file or a link."""
        self._refuse_directory(name)
        with self._finishing(_beside(name)):
            self.link(path, _beside(name))
            self.rename(_beside(name), name)
        # Where that name was one of the same file, nothing is renamed.
        self._remove_left(_beside(name))

    @_together
    def _put_other(self, it):
        """Makes a directory where it isn't there, or a link, in the place of a file or a link."""
        if it.kind == "dir":
            self._make_directory(it.path)
            return
        self._refuse_directory(it.path)
        with self._finishing(_beside(it.path)):
            self.symlink(it.source, _beside(it.path))
            self.rename(_beside(it.path), it.path)

    def _make_directory(self, path):
        try:
            self.mkdir(path)
        except _REFUSALS["Exist"]:
            if self.lstat(path).kind != "dir":
                raise

    def _make_directories(self, path):
        """Makes a directory, and those above it, where they aren't there. A link on the way to one is taken for it."""
        if not path:
            return
        try:
            self.mkdir(path)
        except _REFUSALS["NoEntry"]:
            self._make_directories(path.rpartition(b"/")[0])
            self.mkdir(path)
        except _REFUSALS["Exist"]:
            pass


class ProcessVolume(Files):
    """A mounted volume in a child process. `lfs` is the program's path; one process at a time may have an image. A volume that isn't mounted
    is refused here.

    With `read_only=True` the image is opened for reading, with the lock of those that look, and stays as it is. The child has a copy of it,
    which stands without a name in the folder for temporary files."""

    def __init__(self, image, lfs="lfs", *, read_only=False):
        super().__init__()
        self._is_read_only, self._halted_by, self._child = read_only, None, None
        # The image itself, whose lock keeps writers out as long as it is open.
        self._looked_at = _opened_to_look(image) if read_only else None
        try:
            with _copied(image, self._looked_at.fileno()) if read_only else contextlib.nullcontext(os.fspath(image)) as path:
                self._child = _started(lfs, ["run", path])
                self._begin(os.fsdecode(image), os.fsdecode(path))
        except BaseException:
            self.kill()
            raise

    def _begin(self, image, path):
        """Waits until the child has mounted the volume."""
        self._send("space")
        first, *rest = self._row()
        if first == "err":
            _, cause = self._end(" ".join(rest))
            raise _refusal(rest[0], cause.replace(path, image))

    def __enter__(self):
        return self

    def __exit__(self, *_):
        self.close()

    def close(self):
        """Ends the child. What wasn't synced may be gone."""
        if self._looked_at is not None:
            self._looked_at.close()
        if self._child is None:
            return
        for pipe in (self._child.stdin, self._child.stdout, self._child.stderr):
            try:
                pipe.close()
            except BrokenPipeError:
                pass
        self._child.wait()

    def kill(self):
        """Ends the child at once, as a stop would."""
        if self._child is not None:
            self._child.kill()
        self.close()

    def _send(self, line):
        self._sent = line[:80]
        try:
            self._child.stdin.write(line.encode("ascii") + b"\n")
            self._child.stdin.flush()
        except (BrokenPipeError, ValueError):
            pass  # the child's last line says why, if it wrote one

    def _row(self):
        line = self._child.stdout.readline()
        if not line.endswith(b"\n"):
            status, cause = self._end("it said nothing")
            raise ChildDied(f"{self._sent}: lfs run ended with status {status}: {cause}")
        return line[:-1].decode("ascii").split(" ")

    def _end(self, reply, but=None):
        """The child's status, once it has ended, and what it says of that, but for lines that have some words."""
        return self._child.wait(), _cause(self._child.stderr.read(), reply, but)

    def _call(self, name, *arguments):
        if self._is_read_only:
            _refuse_change(name, arguments)
        if self._halted_by:
            raise _refused_call(name, arguments, "Halted", self._halted_by)
        try:
            return self._ask(name, arguments)
        except Exception:
            raise
        except BaseException:
            # The reply is lost, or a part of it: another call would take the rest for its own.
            self.kill()
            raise

    def _ask(self, name, arguments):
        self._send(_line(name, arguments))
        first, *rest = self._row()
        if first == "err":
            raise self._refused(name, arguments, rest[0])
        if first == "bad":
            _, cause = self._end("the program doesn't know this line")
            raise BadLine(f"{self._sent}: {cause}")
        return self._answer(name, rest)

    def _refused(self, name, arguments, refusal):
        """The exception of a call that is refused. No call is taken once one is `Halted`: then the child ends, and tells why."""
        if refusal == "Halted":
            with contextlib.suppress(OSError):
                self._child.stdin.close()
            # That something isn't saved goes without saying.
            _, cause = self._end("", but=_UNSAVED)
            self._halted_by = f"{_UNWRITABLE}: {cause}" if cause else _CALL_TEXTS[refusal]
        return _refused_call(name, arguments, refusal, self._halted_by)

    def _answer(self, name, words):
        """What the words behind `ok` answer, with the rows behind them."""
        if name in ("pread", "readlink"):
            return _unhex(words[0]) if name == "pread" else _unescape(words[0])
        if name in ("stat", "lstat"):
            number, kind, links, size = words
            return Stat(int(number), kind, int(links), int(size))
        if name in ("readdir", "tree"):
            row_of = self._entry if name == "readdir" else self._tree_row
            return [row_of() for _ in range(int(words[0]))]
        return Space(*map(int, words)) if name == "space" else int(words[0]) if words else None

    def _entry(self):
        name, number, kind = self._row()
        return Entry(_unescape(name), int(number), kind)

    def _tree_row(self):
        directory, name, kind, number, links, size, head = self._row()
        return TreeRow(int(directory), _unescape(name), kind, int(number), int(links), int(size), _head(kind, head))


# The libraries: that over a file, and that with orders. Their functions are those of clients/c/pansuyog_file.h and clients/c/pansuyog.h,
# and each function's name begins with its library's.

_FILES, _ORDERS = "pansuyog_file", "pansuyog"
_SECTOR = 512
# Bytes of a day, as 2026-11-29.
_DAY = 10
# Sectors of one read or write.
_RUN = 128
# Those of a volume of 1,024 segments in format 3: what a larger device has behind them isn't read.
_MOST_SECTORS = 65_792
# Bytes of one write where each sector is written before a volume is made.
_RESERVED = 1 << 20
_KINDS = {1: "file", 2: "dir", 3: "link"}
# The names of its numbers, of which the first stand in the order of the header.
_CODES = {**dict(enumerate(_CALL_TEXTS, 1)), 30: "TooSmall", 31: "NoCheckpoint", **dict.fromkeys(range(101, 116), "Damaged")}
# Methods whose function has another name.
_FUNCTION_OF = {"fill": "pwrite", "readdir": "list"}
# How a device of the caller's own is called in texts.
_DEVICE_NAME = "the device"
_VOLUME_TEXTS = {
    "Inval": "a volume has 64 to 1024 segments, a multiple of 8",
    "NoMemory": _NO_MEMORY,
    "Device": _DEVICE,
    "TooSmall": "it is shorter than its volume, or than any volume",
    "NoCheckpoint": "neither of its two slots holds a checkpoint",
}


@functools.lru_cache(maxsize=None)
def _types():
    """What the functions take, by `ctypes`. It is imported here alone: ProcessVolume has no use for it, and not every Python has it."""
    import ctypes

    # The one that the libraries have too.
    malloc = ctypes.CDLL(None).malloc
    malloc.argtypes, malloc.restype = [ctypes.c_size_t], ctypes.c_void_p

    class RawVolume(ctypes.Structure):
        _fields_ = [("inside", ctypes.c_void_p)]

    class RawStat(ctypes.Structure):
        _fields_ = [("size", ctypes.c_uint64), ("number", ctypes.c_uint32), ("kind", ctypes.c_uint32), ("links", ctypes.c_uint32)]

    class RawSpace(ctypes.Structure):
        _fields_ = [(name, ctypes.c_uint64) for name in ("data", "meta", "need", "limit")]

    class RawShape(ctypes.Structure):
        _fields_ = [(name, ctypes.c_uint32) for name in ("segments", "version", "segment_sectors", "unit")]

    class RawEntry(ctypes.Structure):
        _fields_ = [("number", ctypes.c_uint32), ("kind", ctypes.c_uint32)]

    return types.SimpleNamespace(
        load=ctypes.CDLL,
        malloc=malloc,
        descriptor=ctypes.c_int,
        buffer=ctypes.create_string_buffer,
        pointer=ctypes.POINTER,
        text=ctypes.c_char_p,
        memory=ctypes.c_void_p,
        code=ctypes.c_int32,
        u32=ctypes.c_uint32,
        u64=ctypes.c_uint64,
        size=ctypes.c_size_t,
        volume=RawVolume,
        stat=RawStat,
        space=RawSpace,
        shape=RawShape,
        entry=RawEntry,
    )


def _signatures(c, name):
    """What each function of a library takes behind the volume."""
    given, taken = [c.text, c.size], [c.memory, c.size]
    functions = {
        **dict.fromkeys(["new", "abandon", "sync", "clean", "is_cleaning_due", "clean_once", "version", "upgrade"], []),
        **dict.fromkeys(["close", "fsync"], [c.u32]),
        **dict.fromkeys(["open", "create", "mkdir", "rmdir", "unlink", "widen", "list"], given),
        **dict.fromkeys(["link", "rename", "symlink"], given * 2),
        **dict.fromkeys(["stat", "lstat"], [*given, c.pointer(c.stat)]),
        "pread": [c.u32, c.u64, *taken],
        "pwrite": [c.u32, c.u64, *given],
        "truncate": [c.u32, c.u64],
        "readlink": [*given, *taken],
        "entry": [c.size, c.pointer(c.entry), *taken],
        "space": [c.pointer(c.space)],
        "shape": [c.pointer(c.shape)],
        "record_begin": [c.u32, c.u32],
        "record_line": [c.text, *given],
        "record_save": [],
    }
    if name == _FILES:
        return {**functions, "take": [c.memory, c.u32], "errno": [], "format_with": [c.u32] * 4, "mount": []}
    run = [c.u64, c.pointer(c.u32), *taken]
    orders = {**dict.fromkeys(["carried", "told", "done"], []), "begin": [c.u32], "give": [c.u32, *given], "run": run}
    return {**functions, **orders, "format_with": [c.u32] * 5, "mount": [c.u32]}


def _no_library(found):
    how = "./library builds it, and another ./install puts it beside this module"
    return FileNotFoundError(
        f"the library {found} isn't there: {how}; Volume(image, library=..) takes another path, and ProcessVolume drives the program lfs"
    )


def _loaded(name, path):
    """The library at a path, or without one that which stands beside this module or which the system's loader finds."""
    shared = f"lib{name}.so.0"
    beside = os.path.join(os.path.dirname(os.path.realpath(__file__)), shared)
    found = os.path.abspath(path) if path else beside if os.path.exists(beside) else shared
    if found != shared and not os.path.exists(found):
        raise _no_library(found)
    try:
        library = _types().load(found)
    except OSError as error:
        if found != shared:
            raise
        raise _no_library(found) from error
    if not hasattr(library, f"{name}_new"):
        raise ImportError(f"the library {found} is another one: {shared} is wanted", path=found)
    return library


@functools.lru_cache(maxsize=None)
def _library(name, path):
    """The functions of a library."""
    library, functions = _loaded(name, path), {}
    c = _types()
    for function, taken in _signatures(c, name).items():
        functions[function] = getattr(library, f"{name}_{function}")
        functions[function].argtypes = [c.pointer(c.volume), *taken]
        functions[function].restype = {"abandon": None, "carried": c.u64, "told": c.u64}.get(function, c.code)
    functions["free"] = getattr(library, f"{name}_free")
    functions["free"].argtypes, functions["free"].restype = [c.volume], None
    functions["shape_sectors"] = getattr(library, f"{name}_shape_sectors")
    functions["shape_sectors"].argtypes, functions["shape_sectors"].restype = [c.u32] * 4, c.u32
    return functions


# What people are told of an image that isn't used.
_IMAGE_TEXTS = {
    errno.ENOENT: "there is no such file or folder",
    errno.EACCES: "permission denied",
    errno.EROFS: "it is on a file system that is read-only",
    errno.EISDIR: "it is a folder",
    errno.ENOTBLK: "it is neither a regular file nor a block device",
    errno.EWOULDBLOCK: "it is in use: another program has held its lock for a second",
}
_SYSTEM = "the system refuses to open it or to make it"
_PRESENT = "it is there already; make(.., force=True) makes a volume in its place"
_LOCK_TRIES, _LOCK_PAUSE = 1_000, 0.001
# How a write fails that finds no room: nothing that was written before is in doubt then.
_NO_ROOM = (errno.ENOSPC, errno.EDQUOT, errno.EFBIG)
# How a file system answers that has nothing to sync.
_NO_SYNC = (errno.EINVAL, errno.EROFS)
# What the library answers of a file that it doesn't take.
_TAKING_TEXTS = {-44: _IMAGE_TEXTS[errno.EWOULDBLOCK], -45: "the system refuses to lock it"}
# How a file system answers that has no second names of a file.
_NO_LINKS = (errno.EPERM, errno.EOPNOTSUPP, errno.ENOSYS)


class _Failure(Exception):
    """What failed of an image, a `read`, a `write` or a `sync`, and the system's error."""

    def __init__(self, what, error):
        super().__init__(what)
        self.what, self.error = what, error

    def text(self, image):
        return f"a {self.what} of {image} failed: {_reason(self.error)}"

    def marked(self, refusal):
        """A refusal for this cause."""
        refusal.needs_restart = self.what != "write" or self.error.errno not in _NO_ROOM
        return refusal


@contextlib.contextmanager
def _failing(what):
    """Lets an error of the system be told as the failure of a read, a write or a sync."""
    try:
        yield
    except OSError as error:
        raise _Failure(what, error) from error


def _sync(file, read_only=False):
    """Syncs an image, so that what is read of it stays. One that is only read may be on a file system that has nothing to sync."""
    try:
        os.fsync(file)
    except OSError as error:
        if not read_only or error.errno not in _NO_SYNC:
            raise _Failure("sync", error) from error


def _reason(error):
    """The system's word for an error."""
    return error.strerror or str(error)


def _refused_image(image, text):
    return _refusal("Image", f"{os.fsdecode(image)}: {text}")


def _refused_device(image, failure):
    return failure.marked(_refusal("Device", f"{os.fsdecode(image)}: {failure.text('it')}"))


def _refused_volume(shown, code, unread=None):
    """The exception of a volume that isn't made or mounted, and perhaps why not all of it was read."""
    name = _CODES.get(-code, str(code))
    cause = _VOLUME_TEXTS.get(name, f"stage {-100 - code} of its check fails")
    if unread:
        cause += f", and {unread.text('it')}"
    return _refusal(name, f"{shown}: {cause}")


def _passed(shape):
    """The numbers of a shape, as the libraries take them."""
    return shape.segments, shape.format, shape.segment_sectors, shape.unit


def _sectors_of(shown, shape, functions):
    """How many sectors a volume of a shape takes. One is refused of which there are none."""
    for is_so, why in (
        (shape.segments in range(64, 1_025, 8), _VOLUME_TEXTS["Inval"]),
        (shape.format in (1, 2, 3), "a volume has format 1, 2 or 3"),
        (shape.unit in (1, 2, 4, 8, 16, 32, 64), "a unit has 1, 2, 4, 8, 16, 32 or 64 sectors"),
        (shape.unit == 1 or shape.format == 3, "a unit has several sectors in format 3 alone"),
    ):
        if not is_so:
            raise _refusal("Inval", f"{shown}: {why}")
    return functions["shape_sectors"](*_passed(shape))


@contextlib.contextmanager
def _told_of(image):
    """Lets errors of the system be refusals of an image."""
    try:
        yield
    except FileExistsError as error:
        raise _refused_image(image, _PRESENT) from error
    except OSError as error:
        text = _IMAGE_TEXTS.get(error.errno) or f"{_SYSTEM}: {_reason(error)}"
        raise _refused_image(image, text) from error


def _look_up(image):
    """Refuses what is neither a file nor a block device before it is opened, since opening a pipe waits for its other end."""
    mode = os.stat(image).st_mode
    if not stat.S_ISREG(mode) and not stat.S_ISBLK(mode):
        raise OSError(errno.EISDIR if stat.S_ISDIR(mode) else errno.ENOTBLK, "no image")
    return mode


def _lock(file, kind):
    """Keeps other programs out, or writers alone. One that looks may hold the lock for a short time. A file system without locks refuses
    nothing."""
    for _ in range(_LOCK_TRIES):
        try:
            fcntl.flock(file, kind | fcntl.LOCK_NB)
        except BlockingIOError:
            time.sleep(_LOCK_PAUSE)
        except OSError:
            return
        else:
            return
    raise BlockingIOError(errno.EWOULDBLOCK, "the lock is held")


def _open_apart(path, flags):
    """The descriptor of a file. It isn't one of a standard stream that is closed."""
    first = os.open(path, flags | os.O_CLOEXEC, 0o666)
    try:
        return fcntl.fcntl(first, fcntl.F_DUPFD_CLOEXEC, 3)
    finally:
        os.close(first)


def _opened(image, flags=os.O_RDWR):
    """The descriptor of an image, with its lock."""
    file = _open_apart(image, flags)
    try:
        _lock(file, fcntl.LOCK_EX if flags & os.O_RDWR else fcntl.LOCK_SH)
    except BaseException:
        os.close(file)
        raise
    return file


def _opened_to_look(image):
    """An image that is only read, as a file."""
    with _told_of(image):
        _look_up(image)
        return os.fdopen(_opened(image, os.O_RDONLY), "rb", buffering=0)


@contextlib.contextmanager
def _copied(image, file):
    """The path of a copy of an image, as long as this lasts. What lies behind the longest volume isn't copied."""
    copy, path = tempfile.mkstemp(prefix="pansuyog-")
    try:
        try:
            _copy(file, copy)
        except _Failure as failure:
            raise _refused_device(image, failure) from failure
        except OSError as error:
            raise OSError(error.errno, f"a copy of {os.fsdecode(image)} can't be written: {_reason(error)}", path) from error
        finally:
            os.close(copy)
        yield path
    finally:
        os.unlink(path)


def _copy(file, copy):
    """Copies all sectors of an image that a volume may have. Zeros stay holes."""
    _sync(file, True)
    size = min(os.lseek(file, 0, os.SEEK_END), _MOST_SECTORS * _SECTOR)
    os.ftruncate(copy, size)
    for offset in range(0, size, _RUN * _SECTOR):
        with _failing("read"):
            data = os.pread(file, min(_RUN * _SECTOR, size - offset), offset)
        if any(data):
            _write_all(copy, data, offset)


def _write_all(file, data, offset):
    while data:
        count = os.pwrite(file, data, offset)
        if count == 0:
            raise OSError(errno.EIO, "no byte was written")
        data, offset = data[count:], offset + count


# Behind the name of an image that isn't made yet. A stop may leave it, and the next `make` begins it anew.
_UNMADE = ".lfs-make"


def _refuse_present(image, path):
    """Refuses an image whose name is taken, whatever has it."""
    if os.path.lexists(path):
        _look_up(path)
        raise _refused_image(image, _PRESENT)


def _opened_unmade(image, path):
    """The descriptor of an image that has no name of its own yet. Its name must be free, also once the lock is there."""
    _refuse_present(image, path)
    place = path + _UNMADE
    with contextlib.suppress(FileNotFoundError):
        # A stop behind `link` left a second name of a whole image.
        if os.lstat(place).st_nlink > 1:
            os.unlink(place)
    file = _opened(place, os.O_RDWR | os.O_CREAT | os.O_NOFOLLOW)
    try:
        is_ours = _has_name_alone(file, place)
        if os.path.lexists(path):
            if is_ours:
                os.unlink(place)
            raise _refused_image(image, _PRESENT)
        if not is_ours:
            raise BlockingIOError(errno.EWOULDBLOCK, "another make had it")
    except BaseException:
        os.close(file)
        raise
    return file


def _has_name_alone(file, place):
    """Whether an open file still has its name, and no other. Another `make` may have had it until the lock was there."""
    try:
        held = os.fstat(file)
        return held.st_nlink <= 1 and os.path.samestat(held, os.lstat(place))
    except FileNotFoundError:
        return False


def _name(place, path):
    """Gives a whole image its own name, which must be free."""
    try:
        os.link(place, path)
    except OSError as error:
        if error.errno not in _NO_LINKS:
            raise
        _replace(place, path)
    else:
        # Another `make` may have taken it for what a stop leaves.
        with contextlib.suppress(FileNotFoundError):
            os.unlink(place)


def _replace(place, path):
    """Gives a whole image its own name, which an empty file holds before. What another wrote there meanwhile stays."""
    held = _opened(path, os.O_RDWR | os.O_CREAT | os.O_EXCL)
    try:
        if os.fstat(held).st_size:
            raise FileExistsError(errno.EEXIST, "another program wrote there")
        try:
            os.rename(place, path)
        except BaseException:
            os.unlink(path)
            raise
    finally:
        os.close(held)


def _sync_folder(image, path):
    """Lets the name of a new image stay too. Not every folder can be read, and not every file system syncs one."""
    try:
        folder = os.open(os.path.dirname(path), os.O_RDONLY | os.O_CLOEXEC)
    except OSError:
        return
    try:
        os.fsync(folder)
    except OSError as error:
        if error.errno != errno.EINVAL:
            refusal = _refused_image(image, f"the folder that has it can't be synced: {_reason(error)}")
            raise _Failure("sync", error).marked(refusal) from error
    finally:
        os.close(folder)


@contextlib.contextmanager
def _naming(image, path):
    """Gives a new image its name once it is whole and synced, with its lock. Where that fails nothing is left of it."""
    place = path + _UNMADE
    try:
        yield
        with _told_of(image):
            _name(place, path)
        place = path
        _sync_folder(image, path)
    except BaseException:
        with contextlib.suppress(OSError):
            os.unlink(place)
        raise


def _make_by_library(image, shape, reserve, force, library):
    functions = _library(_FILES, library)
    sectors = _sectors_of(os.fsdecode(image), shape, functions)
    path = os.path.realpath(os.fsdecode(image))
    with _told_of(image):
        is_over = force and os.path.exists(path)
        if os.path.exists(path) and stat.S_ISBLK(_look_up(path)):
            raise _refused_image(image, "it is a block device: lfs mkfs --force makes a volume on one")
        file = _opened(path) if is_over else _opened_unmade(image, path)
    made = _OverFile(image, functions, file)
    with contextlib.closing(made), contextlib.nullcontext() if is_over else _naming(image, path):
        made.empty(_SECTOR * sectors, reserve)
        made.format(shape)


def _opened_again(file):
    """Another descriptor of an open file, or none. A sync of it tells whether a write to the file was lost since."""
    try:
        return _open_apart(f"/proc/self/fd/{file}", os.O_RDONLY)
    except OSError:
        return None


def _give_back(functions, raw, files):
    functions["free"](raw)
    for file in files:
        os.close(file)


class _Held:
    """A volume as a library has it, mounted or not. All that it holds is given back in the end."""

    def __init__(self, shown, functions):
        self.shown, self._functions, self._raw = shown, functions, _types().volume()
        # Descriptors that are closed in the end.
        self._files = []
        # Why no call is taken any more.
        self.halted_by = None
        if functions["new"](self._raw) < 0:
            raise _refusal("NoMemory", f"{shown}: {_NO_MEMORY}")
        self.close = weakref.finalize(self, _give_back, functions, self._raw, self._files)
        # Another thread may be in a call when the program ends.
        self.close.atexit = False


class _OverFile(_Held):
    """A volume in an open file, which the library reads, writes and syncs. A call is done once it returns."""

    def __init__(self, image, functions, file):
        try:
            super().__init__(os.fsdecode(image), functions)
        except BaseException:
            os.close(file)
            raise
        self._image, self._file, self._second = image, file, None
        self._files.append(file)

    def empty(self, size, reserve):
        """Gives the image this size, with nothing in it. That it may be so long is tried before it is emptied."""
        try:
            if os.lseek(self._file, 0, os.SEEK_END) < size:
                os.ftruncate(self._file, size)
            os.ftruncate(self._file, 0)
            os.ftruncate(self._file, size)
        except OSError as error:
            raise _refused_image(self._image, f"the file can't have the length of the volume: {_reason(error)}") from error
        if reserve:
            self._reserve(size)

    def _reserve(self, size):
        """Writes each sector, so that there is room for it."""
        zeros = memoryview(bytes(_RESERVED))
        try:
            for offset in range(0, size, _RESERVED):
                with _failing("write"):
                    _write_all(self._file, zeros[: size - offset], offset)
            _sync(self._file)
        except _Failure as failure:
            if failure.error.errno in _NO_ROOM:
                raise _refused_image(self._image, f"there is no room for all of its sectors: {_reason(failure.error)}") from failure
            raise _refused_device(self._image, failure) from failure

    def format(self, shape):
        self._lend(read_only=False)
        self._check(self._functions["format_with"](self._raw, *_passed(shape)), "write or a sync")

    def mount(self, read_only):
        if read_only:
            self._let_sync()
        self._lend(read_only)
        self._check(self._functions["mount"](self._raw), "read or a sync")

    def call(self, name, *given):
        """The number that a call answers."""
        code = self._functions[name](self._raw, *given)
        refusal = _CODES.get(-code)
        if refusal == "Device":
            raise self._failure("read")
        if refusal == "Halted":
            self.halted_by = self._failure("write or a sync")
            raise self.halted_by
        return code

    def _let_sync(self):
        """Takes a copy where the image is only read and its file system has nothing to sync: the library syncs before it reads. The image
        stays open, for its lock."""
        try:
            with _failing("sync"):
                os.fsync(self._file)
        except _Failure as failure:
            if failure.error.errno not in _NO_SYNC:
                raise _refused_device(self._image, failure) from failure
            with _copied(self._image, self._file) as path:
                self._file = _open_apart(path, os.O_RDONLY)
            self._files.append(self._file)

    def _lend(self, read_only):
        """Gives the file to the library, which closes it, also where it doesn't take it."""
        c = _types()
        block = c.malloc(4)
        if not block:
            raise _refusal("NoMemory", f"{self.shown}: {_NO_MEMORY}")
        if not read_only:
            self._second = _opened_again(self._file)
            self._files += [self._second] * (self._second is not None)
        c.descriptor.from_address(block).value = self._file
        self._files.remove(self._file)
        code = self._functions["take"](self._raw, block, int(read_only))
        if code < 0:
            raise _refused_image(self._image, _TAKING_TEXTS.get(code, "the system refuses to tell its length"))

    def _check(self, code, what):
        """Refuses a volume that the library doesn't make or mount, and says what may have failed of its file."""
        if _CODES.get(-code) == "Device":
            failure = self._failure(what)
            raise _refused_device(self._image, failure) from failure
        if code < 0:
            raise _refused_volume(self.shown, code)

    def _failure(self, what):
        """What failed last of the file. The library tells the system's error, or none where the system did less than it was to."""
        number = self._functions["errno"](self._raw)
        less = "no byte was written" if "write" in what else "it ends before that"
        error = OSError(number, os.strerror(number)) if number else OSError(less)
        if "write" in what and number in _NO_ROOM and self._is_synced():
            what = "write"
        return _Failure(what, error)

    def _is_synced(self):
        """Whether all that was written since the file was opened is on its medium. The system tells each descriptor of a write that was
        lost, also once another one was told."""
        try:
            if self._second is not None:
                os.fsync(self._second)
        except OSError:
            return False
        return self._second is not None


class _OverDevice(_Held):
    """A volume on a device of the caller's own. Its orders are carried out behind each call."""

    def __init__(self, device, functions):
        super().__init__(_DEVICE_NAME, functions)
        # Why not all was read.
        self._device, self._unread = device, None
        self._run = _types().buffer(_RUN * _SECTOR)

    def format(self, shape):
        self._begin("format_with", *_passed(shape))

    def mount(self, _):
        self._begin("mount")

    def call(self, name, *given):
        """The number that a call answers."""
        code = self._functions[name](self._raw, *given)
        self._carry()
        return code

    def _begin(self, name, *numbers):
        """Reads the device, and makes or mounts its volume."""
        try:
            sectors = self._read_all()
            # Memory is taken for the orders of a pass of the cleaner and of a commit.
            code = self._functions[name](self._raw, *numbers, 8 * (sectors // 64) + 520)
            self._carry()
        except _Failure as failure:
            raise _refused_device(self.shown, failure) from failure
        if code < 0:
            raise _refused_volume(self.shown, code, self._unread)

    def _read_all(self):
        """Gives the library all sectors that can be read: how many there are."""
        with _failing("sync"):
            self._device.sync()
        with _failing("read"):
            sectors = min(self._device.sectors(), _MOST_SECTORS)
        code = self._functions["begin"](self._raw, sectors)
        if code < 0:
            raise _refused_volume(self.shown, code)
        sector = 0
        while sector < sectors:
            # Where a run can't be read its first sector is tried alone, and isn't given where that can't be read.
            sector += self._give(sector, min(_RUN, sectors - sector)) or self._give(sector, 1) or 1
        return sectors

    def _give(self, first, count):
        """Gives sectors that follow one another: how many of them could be read."""
        try:
            data = _octets(self._device.read(first, count))[: count * _SECTOR]
        except OSError as error:
            self._unread = _Failure("read", error)
            return 0
        self._functions["give"](self._raw, first, data, len(data))
        return len(data) // _SECTOR

    def _carry(self):
        """Carries out the orders that wait. Where the device fails the volume is given up."""
        number, told = self._functions["carried"](self._raw), self._functions["told"](self._raw)
        if number == told:
            return
        try:
            while number < told:
                number += self._carry_run(number)
        except _Failure as failure:
            self.halted_by = failure
            self._functions["abandon"](self._raw)
            raise
        self._functions["done"](self._raw)

    def _carry_run(self, number):
        """Carries out a sync, or writes to sectors that follow one another: how many orders."""
        first = _types().u32()
        count = self._functions["run"](self._raw, number, first, self._run, _RUN)
        if count < 0:
            raise RuntimeError(f"the library has no order {number}")
        if count == 0:
            with _failing("sync"):
                self._device.sync()
            return 1
        with _failing("write"):
            self._device.write(first.value, self._run[: count * _SECTOR])
        return count


class Volume(Files):
    """A mounted volume in the library. One process at a time may have an image, and not a child that was forked from it. Threads may share a
    volume: calls are made one at a time, and those that read or write one whole file are made together. `library` is the path of the shared
    object, where it isn't installed. A volume that isn't mounted is refused here.

    The library reads of the image what a call needs, and takes 0.7 to 4.7 MB of memory for the volume. With `read_only=True` the image is
    opened for reading, with the lock of those that look, and nothing is written."""

    def __init__(self, image, *, library=None, read_only=False):
        functions = _library(_FILES, library)
        with _told_of(image):
            _look_up(image)
            file = _opened(image, os.O_RDONLY if read_only else os.O_RDWR)
        self._start(_OverFile(image, functions, file), read_only)

    @classmethod
    def over(cls, device, *, library=None, read_only=False):
        """The volume of a device of the caller's own, which has four methods:

        - `sectors()` tells how many sectors of 512 bytes there are.
        - `read(first, count)` gives the bytes of sectors that follow one another. Where it raises `OSError` each of them is tried alone.
        - `write(first, data)` writes as many as the data has, from the first one on.
        - `sync()` keeps all that was written before, through a loss of power too.

        It is read whole, and kept in memory: 2.1 MB for a volume of 64 segments, 33.6 MB for one of 1,024. Where a write or a sync raises
        `OSError` the call and all later ones are `Halted`. A sync that failed isn't tried again. This is another library, of which
        `library` is the path, and nobody else writes to the device meanwhile."""
        volume = cls.__new__(cls)
        volume._start(_OverDevice(device, _library(_ORDERS, library)), read_only)
        return volume

    def _start(self, held, read_only):
        """Mounts the volume, or gives all back."""
        super().__init__()
        self._held, self._is_read_only, self._types = held, read_only, _types()
        # The thread whose call is under way.
        self._lock, self._caller = threading.RLock(), None
        # One byte more than a call takes: so many are refused as any number of them.
        self._taken = self._types.buffer(_LONGEST_TRANSFER + 1)
        try:
            held.mount(read_only)
        except BaseException:
            held.close()
            raise

    def __enter__(self):
        return self

    def __exit__(self, *_):
        self.close()

    def close(self):
        """Gives the image or the device back, and the memory. What wasn't synced may be gone."""
        with self._one_call():
            self._held.close()

    # A stop takes no more away.
    kill = close

    def is_cleaning_due(self):
        """Whether fewer than a quarter of the segments is clean, so that the two calls that clean have something to do."""
        return self._call("is_cleaning_due") == 1

    def clean_once(self):
        """Makes one pass of the cleaner where that is so, and nothing else. What isn't saved is saved before. A program that calls it in its
        idle moments waits seldom for the cleaner in another call."""
        self._call("clean_once")

    def shape(self):
        """What the volume was made with, and the format that it has now: a `Shape`."""
        return self._call("shape")

    def record_begin(self, bytes, files=0):
        """Begins to record lines in numbered files of the root, of which the oldest goes where there is no space. The next file begins behind
        so many bytes, and with each day. At most so many files are kept, or for 0 as many as there is space for. The newest file goes on
        where it ends with a newline and no other name gives it. A recorder that had begun before ends."""
        self._call("record_begin", _number(bytes, 32), _number(files, 32))

    def record_line(self, day, line):
        """Writes a line of a day, as "2026-11-29", and a newline behind it: all of it or nothing. `Inval` for another day, for a line of more
        than 65,535 bytes or with a newline, and where no recorder has begun."""
        self._call("record_line", _bytes(day), _bytes(line))

    def record_save(self):
        """Saves all lines so far: none of them is lost then. `Inval` where no recorder has begun."""
        self._call("record_save")

    def tree(self):
        """Each entry of each directory. A file is opened for its first bytes. One whose path has more than 1,023 bytes is left out with a
        warning, `Omitted`."""
        rows, waiting = [], [(1, b"/")]
        while waiting:
            number, path = waiting.pop()
            for entry in self.readdir(path):
                below = _below(path, entry.name)
                if not _is_reached(below):
                    continue
                told = self.lstat(below)
                rows.append(TreeRow(number, entry.name, entry.kind, entry.number, told.links, told.size, self._head(below, entry.kind)))
                if entry.kind == "dir":
                    waiting.append((entry.number, below))
        return sorted(rows)

    def _head(self, path, kind):
        if kind != "file":
            return self.readlink(path) if kind == "link" else b""
        with self._handle(self.open(path)) as handle:
            return self.pread(handle, 0, 16)

    def _alone(self):
        return self._lock

    @contextlib.contextmanager
    def _one_call(self):
        """Lets in one call at a time. One within another of its thread, as a handler of a signal may make, is an error."""
        if self._caller == threading.get_ident():
            raise RuntimeError("a call of this volume is under way in this thread")
        with self._lock:
            self._caller = threading.get_ident()
            try:
                yield
            finally:
                self._caller = None

    def _call(self, name, *arguments):
        more = self._MORE.get(name)
        with self._one_call():
            if not self._held.close.alive:
                raise ValueError("the volume is closed")
            if self._is_read_only:
                _refuse_change(name, arguments)
                more = self._SAVING.get(name, more)
            return more(self, name, *arguments) if more else self._ask(name, arguments)

    def _ask(self, name, arguments, *given):
        """Makes a call with what is given, or else with its arguments, each path with its length: the number that it answers."""
        if not given:
            given = [it for argument in arguments for it in ((argument, len(argument)) if isinstance(argument, bytes) else (argument,))]
        return self._answer(name, arguments, _FUNCTION_OF.get(name, name), *given)

    def _answer(self, name, arguments, function, *given):
        """The number that a function answers for a call."""
        if self._held.halted_by:
            raise self._failed(name, arguments, self._held.halted_by)
        try:
            code = self._held.call(function, *given)
        except _Failure as failure:
            raise self._failed(name, arguments, failure) from failure
        if code < 0:
            raise _refused_call(name, arguments, _CODES.get(-code, str(code)))
        return code

    def _failed(self, name, arguments, failure):
        """The refusal of a call, since a read of the image failed in it, or a write or a sync in it or before."""
        text, is_halted = failure.text(self._held.shown), failure is self._held.halted_by
        refusal, cause = ("Halted", f"{_UNWRITABLE}: {text}") if is_halted else ("Device", text)
        return failure.marked(_refused_call(name, arguments, refusal, cause))

    def _read(self, name, handle, offset, length):
        count = self._ask(name, (handle, offset, length), handle, offset, self._taken, min(length, len(self._taken)))
        return self._taken[:count]

    def _fill(self, name, handle, offset, length, byte):
        data = bytes([byte]) * min(length, len(self._taken))
        return self._ask(name, (handle, offset, length, byte), handle, offset, data, len(data))

    def _text(self, name, path):
        count = self._ask(name, (path,), path, len(path), self._taken, len(self._taken))
        return self._taken[:count]

    def _status(self, name, path):
        told = self._types.stat()
        self._ask(name, (path,), path, len(path), told)
        return Stat(told.number, _KINDS[told.kind], told.links, told.size)

    def _entries(self, name, path):
        return [self._entry(place) for place in range(self._ask(name, (path,)))]

    def _entry(self, place):
        told = self._types.entry()
        length = self._held.call("entry", place, told, self._taken, len(self._taken))
        return Entry(self._taken[:length], told.number, _KINDS[told.kind])

    def _measure(self, name):
        told = self._types.space()
        self._ask(name, (), told)
        return Space(told.data, told.meta, told.need, told.limit)

    def _describe(self, name):
        told = self._types.shape()
        self._ask(name, (), told)
        return Shape(told.segments, told.version, told.unit, told.segment_sectors)

    def _write_line(self, name, day, line):
        # The function takes ten bytes, so another day goes to it as one of zeros, which it refuses.
        return self._ask(name, (day, line), day if len(day) == _DAY else bytes(_DAY), line, len(line))

    def _save_nothing(self, name, *arguments):
        """Saves a volume that is only read, of which there is nothing to save. A handle has to be open."""
        for handle in arguments:
            self._answer(name, arguments, "pread", handle, 0, self._taken, 0)

    # The calls that answer more than a number, or whose arguments aren't the function's.
    _MORE = {
        "pread": _read,
        "fill": _fill,
        "readlink": _text,
        "stat": _status,
        "lstat": _status,
        "readdir": _entries,
        "space": _measure,
        "shape": _describe,
        "record_line": _write_line,
    }
    # Those that save, where the volume is only read.
    _SAVING = {"sync": _save_nothing, "fsync": _save_nothing}


def _tar_into(volume, archive, path):
    with contextlib.ExitStack() as opened:
        file = sys.stdin.buffer if archive == "-" else opened.enter_context(open(archive, "rb"))
        return volume.import_tar(file, path)[:2]


def _tar_out_of(volume, archive, path):
    if archive == "-":
        return volume.export_tar(sys.stdout.buffer, path)
    with open(archive, "xb") as file:
        try:
            return volume.export_tar(file, path)
        except BaseException:
            os.unlink(archive)
            raise


def _parser():
    import argparse

    parser = argparse.ArgumentParser("python3 -m pansuyog", description="Puts an archive of tar into a volume, or makes one of a volume.")
    commands = parser.add_subparsers(dest="command", metavar="COMMAND", required=True)
    helps = {
        "import": "put what is in an archive into a directory; the volume is saved at the end, and behind each 64 MiB",
        "export": "make a new archive of all that is in a directory",
    }
    for name, text in helps.items():
        command = commands.add_parser(name, help=text, description=text)
        command.add_argument("image", metavar="IMAGE", help="the image file or block device that holds the volume")
        command.add_argument("archive", metavar="FILE.tar", help="the archive, or - for a standard stream")
        command.add_argument("--path", default="/", metavar="PATH", help="the directory in the volume, or else the root")
        how = command.add_mutually_exclusive_group()
        how.add_argument("--library", metavar="FILE", help="the library libpansuyog_file.so, where it isn't installed")
        how.add_argument("--lfs", metavar="PROGRAM", help="use the program `lfs` at this path in the place of the library")
    return parser


def _main():
    """The command line: its exit status."""
    import tarfile

    given = _parser().parse_args()
    is_import = given.command == "import"
    warnings.showwarning = lambda message, *_: print(f"pansuyog: {message}", file=sys.stderr)
    warnings.simplefilter("always", Omitted)
    how = {"lfs": given.lfs} if given.lfs else {"library": given.library}
    try:
        with (ProcessVolume if given.lfs else Volume)(given.image, read_only=not is_import, **how) as volume:
            files, size = (_tar_into if is_import else _tar_out_of)(volume, given.archive, os.fsencode(given.path))
        if is_import or given.archive != "-":
            print(f"ok {files} files {size} bytes", flush=True)
    except BrokenPipeError:
        # Nobody reads what is written: what is left of it goes nowhere.
        os.dup2(os.open(os.devnull, os.O_WRONLY), sys.stdout.fileno())
        return 1
    except tarfile.TarError as error:
        print(f"pansuyog: {given.archive}: it isn't an archive of tar, or isn't whole: {error}", file=sys.stderr)
        return 1
    except (Refused, ChildDied, BadLine, OSError) as error:
        print(f"pansuyog: {error}", file=sys.stderr)
        return 1
    return 0


if __name__ == "__main__":
    sys.exit(_main())
