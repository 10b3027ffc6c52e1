"""The crates of this repository, as crates.txt lists them, and sums over their text: what the scripts beside this share."""
import hashlib
import os
import subprocess

ROOT = os.path.dirname(os.path.dirname(os.path.realpath(__file__)))


def read(path):
    """A file of the repository as text."""
    with open(path if os.path.isabs(path) else f"{ROOT}/{path}", encoding="utf-8") as file:
        return file.read()


def state(part):
    """The folder outside of all clones that keeps what runs came to, for one of the scripts."""
    base = os.environ.get("XDG_STATE_HOME") or os.path.expanduser("~/.local/state")
    folder = f"{base}/pansuyog-{part}"
    os.makedirs(folder, exist_ok=True)
    return folder


def lines(root=ROOT):
    """Each crate's line of crates.txt, by its name, in the order of that file."""
    found = (line.split("#")[0].strip() for line in read(f"{root}/crates.txt").splitlines())
    return {line.split(":")[0].split()[0]: line for line in found if line}


def dependencies(root=ROOT):
    """Each crate with the crates of this repository that it names."""
    found = lines(root)
    return {name: [it for it in line.partition(":")[2].split() if it in found] for name, line in found.items()}


def below(names, named=None):
    """These crates and all that they stand on, the lowest first."""
    named, found = named or dependencies(), []

    def visit(name):
        if name not in found:
            for it in named[name]:
                visit(it)
            found.append(name)

    for name in names:
        visit(name)
    return found


def files(name, parts=("src", "specs", "proofs"), root=ROOT):
    """The files of a crate in these folders, by name."""
    for part in parts:
        for at, folders, found in os.walk(f"{root}/crates/{name}/{part}"):
            folders.sort()
            yield from (f"{at}/{it}" for it in sorted(found))


def version_of_kit():
    return subprocess.run(["rt", "version"], check=True, capture_output=True, text=True).stdout.strip()


def logic_of_kit():
    """What the kit's line says of the logic that it proves in. Releases of one logic take the same proofs."""
    return version_of_kit().partition(" ")[2]


def bare(path):
    """A file's bytes; of a source of Rattle its words, without the lines that are comments alone."""
    with open(path, "rb") as file:
        text = file.read()
    if not path.endswith(".rt"):
        return text
    return b" ".join(word for line in text.splitlines() if not line.lstrip().startswith(b"//") for word in line.split())


def sum_of(*parts):
    """One sum over texts or bytes, in this order."""
    whole = hashlib.sha256()
    for part in parts:
        data = part.encode() if isinstance(part, str) else part
        whole.update(f"{len(data)} ".encode() + data)
    return whole.hexdigest()


def sum_of_files(paths, root=ROOT):
    """One sum over the names and the bytes of files."""
    return sum_of(*(part for path in paths for part in (os.path.relpath(path, root), bare(path))))
