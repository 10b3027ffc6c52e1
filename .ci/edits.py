"""Wrong bodies: edits in crates/NAME/wrong/ and crates/NAME/must-fail/ that the prover has to refuse, and their trial.

An edit has the form of those in must-fail/, which the gate itself tries. It may have a line `meant: FUNCTION clause NAME`, with a goal
that is to be among those that aren't proved; of an edit of specs/ that may be `lemma NAME`. The kit passes over such a line.
"""
import importlib.machinery
import importlib.util
import os
import re
import shutil
import subprocess
import tempfile
import threading
import time
from concurrent.futures import ThreadPoolExecutor
from typing import NamedTuple

import crates
from crates import ROOT

ONE_JOB = ["--jobs", "1"]
MOST_LANES = 4
MEANT = "meant: "
# What the prover says of a goal that isn't proved: at a line of a source, or at an answer of a proof file.
AT_SOURCE = re.compile(r"(?:note: )?(?:\./)?(src/\S+):(\d+):\d+: (.*)")
AT_ANSWER = re.compile(r"(?:note: )?(?:\./)?proofs/(\S+)/\w+\.antt:\d+:\d+: error: `([^`]+)`: (.*)")
# A lemma stands in a file right in proofs/. Where definitions are edited, that of a law may be what isn't proved.
AT_LEMMA = re.compile(r"(?:note: )?(?:\./)?proofs/\w+\.antt:\d+:\d+: error: `([^`]+)`: (.*)")
GOAL = re.compile(r"\(`([^`]+)`\)")
UNPROVED = re.compile(r"it is not proved that|`search` found no proof")
# A proof file names what an edit took away: that says nothing of the contract.
GONE = re.compile(r"has no field|is not in scope|has no `|was not admitted")
# The last check of each lane: the edited files, and what the prover said.
LAST = threading.local()


def edits_in(name, part="wrong"):
    """The names of a crate's edits in wrong/ or must-fail/."""
    folder = f"{ROOT}/crates/{name}/{part}"
    found = os.listdir(folder) if os.path.isdir(folder) else []
    return sorted(it.removesuffix(".edit") for it in found if it.endswith(".edit"))


def path_of(name, edit, part="wrong", root=ROOT):
    return f"{root}/crates/{name}/{part}/{edit}.edit"


def misfits(name):
    """The crate's edits that don't fit: a text that they replace doesn't stand exactly once in its file."""
    for part in ("wrong", "must-fail"):
        for edit in edits_in(name, part):
            yield from (f"{name}/{part}/{edit}.edit: {old}" for old in unfit(name, path_of(name, edit, part)))


def unfit(name, edit):
    """The texts that an edit replaces and that don't stand exactly once in their files, as the edit's earlier pairs left these."""
    texts, path, old = {}, "", ""
    for line in crates.read(edit).splitlines():
        word, _, rest = line.partition(": ")
        if word == "file":
            path = rest.strip()
            texts.setdefault(path, crates.read(f"crates/{name}/{path}"))
        elif word == "old":
            old = rest
            if texts[path].count(old) != 1:
                yield old
        elif word == "new":
            texts[path] = texts[path].replace(old, rest, 1)


def sums_of(name, logic):
    """Each wrong body of a crate with a sum over all that its trial rests on: the logic, HANDLES, the crate's line, its files in src/ and specs/,
    and the edit without what it is meant for. A change of proofs/ asks for no trial, since it leaves each contract as it was."""
    own = crates.sum_of(logic, crates.read("HANDLES"), crates.lines()[name], crates.sum_of_files(crates.files(name, ("src", "specs"))))
    return {edit: crates.sum_of(own, without_meaning(path_of(name, edit))) for edit in edits_in(name)}


def without_meaning(edit):
    return "".join(line for line in crates.read(edit).splitlines(keepends=True) if not line.startswith(MEANT))


def meant_for(edit):
    """What an edit is meant to be refused for, if it says so."""
    return next((line[len(MEANT) :].strip() for line in crates.read(edit).splitlines() if line.startswith(MEANT)), None)


def is_meant(meant, goal):
    """Whether a goal is the one that is meant, or the one of some way to return where a whole function's is."""
    return goal == meant or (meant.endswith(" returns") and goal.startswith(f"{meant}-"))


def link(path, to):
    """A second name of a file, which nobody changes in place; a copy where the file system has no such names."""
    try:
        return os.link(path, to)
    except OSError:
        return shutil.copy2(path, to)


def copy_to(place, chosen):
    """The working tree, with the libraries that were built, and what checks kept of the crates that are chosen."""
    tracked = subprocess.run(["git", "ls-files", "-co", "--exclude-standard", "-z"], cwd=ROOT, check=True, capture_output=True)
    for path in filter(None, tracked.stdout.decode().split("\0")):
        if os.path.isfile(f"{ROOT}/{path}"):
            os.makedirs(os.path.dirname(f"{place}/{path}"), exist_ok=True)
            shutil.copy2(f"{ROOT}/{path}", f"{place}/{path}")
    for name in crates.below(chosen):
        for part, way in (("rlib", link), ("incremental", shutil.copy2)):
            made = f"crates/{name}/out/{part}"
            if os.path.isdir(f"{ROOT}/{made}") and (part == "rlib" or name in chosen):
                shutil.copytree(f"{ROOT}/{made}", f"{place}/{made}", symlinks=True, copy_function=way)
    subprocess.run(["git", "init", "-q"], cwd=place, check=True)


def function_at(text, number):
    """The function that has this line of a source: its attributes and the comments before it are its own."""
    lines = text.splitlines()
    last = int(number)
    while last < len(lines) and lines[last - 1].lstrip().startswith(("#[", "//")):
        last += 1
    named = [re.match(r'\s*(?:pub(?:\([^)]*\))? )?(?:const )?(?:extern "\w+" )?fn (\w+)', line) for line in lines[:last]]
    return next((it[1] for it in reversed(named) if it), "?")


def clause_of(goal):
    """A goal by the clause that it is for, where the clause has a name."""
    called = re.match(r"(\w+)-requires", goal)
    named = re.search(r"clause-([\w.]+)$", goal)
    if called:
        return f"requires of {called[1]}" + (f" clause {named[1]}" if named else "")
    return f"clause {named[1]}" if named else goal


def goals_of(said, texts, folder):
    """What wasn't proved, by the lines of a check of a crate: each function with its clause or its goal, once."""
    found = []
    for line in said.splitlines():
        at_source, at_answer, at_lemma = AT_SOURCE.match(line), AT_ANSWER.match(line), AT_LEMMA.match(line)
        if at_lemma and not GONE.search(at_lemma[2]):
            found.append(f"lemma {at_lemma[1]}")
        elif at_answer and not GONE.search(at_answer[3]):
            found.append(f"{at_answer[1].split('/')[-1]} {clause_of(at_answer[2])}")
        elif at_source and UNPROVED.search(at_source[3]):
            path, number, what = at_source.groups()
            goal = GOAL.search(what)
            text = texts.get(path) or crates.read(f"{folder}/{path}")
            found.append(f"{function_at(text, number)} {clause_of(goal[1]) if goal else what.split(': help')[0][:80]}")
    return list(dict.fromkeys(found))


def command_rt():
    """The command rt as a module, whose trial of an edit is the one that the gate makes."""
    loader = importlib.machinery.SourceFileLoader("rt", os.path.realpath(shutil.which("rt")))
    made = importlib.util.module_from_spec(importlib.util.spec_from_loader("rt", loader))
    loader.exec_module(made)
    made.rtlib.guarded()
    checked = made.checked

    def remembered(crate, texts, flags, kept):
        """A check, whose lines stay to be read."""
        ran = checked(crate, texts, flags, kept)
        LAST.texts, LAST.said = texts, ran.stdout
        return ran

    made.checked = remembered
    return made


def stands(crate):
    """Whether a crate's library is there: one of the text that stands here, or one that a run of the gate made, which notes no text."""
    is_noted = os.path.exists(f"{os.path.dirname(crate.rlib)}/stamp")
    return crate.is_built() if is_noted else os.path.isdir(crate.rlib)


class Tried(NamedTuple):
    """What a trial of an edit came to: whether it was refused, and for what."""

    edit: str
    is_refused: bool
    answer: str


class Bench:
    """A copy of the tree, in which edits of these crates are tried, over the work that checks kept."""

    def __init__(self, names):
        self.names, self.rt, self.place = names, command_rt(), None

    def __enter__(self):
        self.place = tempfile.mkdtemp(prefix="wrong-")
        copy_to(self.place, self.names)
        os.chdir(self.place)
        return self

    def __exit__(self, *_):
        os.chdir(ROOT)
        shutil.rmtree(self.place, ignore_errors=True)

    def crate(self, name):
        return next(it for it in self.rt.rtlib.crates_below(self.place) if it.name == name)

    def is_proved(self, crate):
        """Whether the crate itself is proved, as it has to be before an edit of it tells anything."""
        if any(not stands(it) and it.build_rlib(ONE_JOB, anew=False) for it in crate.below()):
            return False
        kept = f"{crate.folder}/out/incremental"
        os.makedirs(kept, exist_ok=True)
        return self.rt.checked(crate, {}, ONE_JOB, kept).returncode == 0

    def try_one(self, crate, edit, part, kept):
        path = f"{crate.folder}/{part}/{edit}.edit"
        # An edit that can't be applied isn't checked.
        LAST.texts, LAST.said = {}, ""
        came_to, text = self.rt.must_fail(crate, path, ONE_JOB, kept)
        goals, meant = goals_of(LAST.said, LAST.texts, crate.folder), meant_for(path)
        # Some kits have a word for a refusal, others say whether there was one.
        if came_to != getattr(self.rt, "REFUSED", True):
            return Tried(edit, False, text)
        if meant and not any(is_meant(meant, goal) for goal in goals):
            return Tried(edit, True, f"refused, but not for what it is meant for ({meant}): " + "; ".join(goals))
        names_alone = "only because" in text
        return Tried(edit, True, "refused for names alone" if names_alone else "; ".join(goals) or text.partition("as it must be: ")[2])

    def tried(self, name, names, part, may_go_on=lambda: True):
        """Gives what became of each of these edits of a crate, as it is known. Nothing where the crate itself isn't proved."""
        crate = self.crate(name)
        if not self.is_proved(crate):
            return
        count = lanes_for(names)
        kept = [shutil.copytree(f"{crate.folder}/out/incremental", f"{crate.folder}/out/lane-{at}") for at in range(count)]
        waiting = list(names)
        with ThreadPoolExecutor(count) as pool:
            lanes = {}
            while lanes or waiting and may_go_on():
                for at in range(count):
                    if at not in lanes and waiting and may_go_on():
                        lanes[at] = pool.submit(self.try_one, crate, waiting.pop(0), part, kept[at])
                done = [at for at, it in lanes.items() if it.done()]
                yield from (lanes.pop(at).result() for at in done)
                time.sleep(0 if done else 0.2)
        for it in kept:
            shutil.rmtree(it, ignore_errors=True)


def lanes_for(names):
    """How many trials run side by side: one a processor, four at most, which 24 GiB of memory hold; RT_JOBS says another number."""
    number = os.environ.get("RT_JOBS", "")
    return max(1, min(int(number) if number.isdigit() else MOST_LANES, len(os.sched_getaffinity(0)), len(names)))
