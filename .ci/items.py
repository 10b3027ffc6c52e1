"""Reads the items of a crate's sources: its modules with what they declare, by the words of Rattle that stand outside of contracts and bodies."""
import dataclasses
import os
import re

import crates

# What has no items: comments, and texts and letters between quotes. A prime behind a name is part of it, and a lifetime has no second quote.
COMMENT = r"//[^\n]*|/\*.*?\*/"
QUOTED = r'b?r(?P<hashes>#*)".*?"(?P=hashes)|b?"(?:\\.|[^"\\])*"|(?<![\w\'])(?:b(?=\'))?\'(?:\\(?:u\{[^}]*\}|x..|.)|[^\'\\\n])\''
HIDDEN = re.compile(rf"(?P<comment>{COMMENT})|{QUOTED}", re.S)
CLAUSE = re.compile(r"(requires|ensures|ghost|by)\b")
HEAD = re.compile(
    r"(?P<reach>pub(?:\s*\([^)]*\))?\s+)?(?:(?P<kind>ghost)\b"
    r"|(?:(?:const|unsafe|async|extern)\s+)*(?P<item>fn|struct|enum|trait|impl|mod|use|const|type|static)\b\s*(?P<name>\w*)"
    r"|(?P<macro>\w+)\s*!)"
)
BLOCKS = ("enum", "trait", "impl")


@dataclasses.dataclass
class Item:
    """What a module, an `impl` or a trait declares. `head` is its text without contract and body, `inside` what stands between its brackets."""

    kind: str
    name: str
    reach: str
    attributes: list
    head: str
    inside: tuple

    @property
    def is_public(self):
        return self.reach == "pub"

    @property
    def is_for_tests(self):
        return any(re.match(r"#\[(test|cfg\(test\))\]", it) for it in self.attributes)


class Text:
    """A source. `code` is without comments, and `bare` without what is quoted too; both are as long as the source."""

    def __init__(self, path):
        text = crates.read(path)
        self.path = path
        self.code = HIDDEN.sub(lambda it: blank(it[0]) if it["comment"] is not None else it[0], text)
        self.bare = HIDDEN.sub(lambda it: blank(it[0]), text)

    def behind(self, at):
        """The place behind the bracket that belongs to the one that is here."""
        opens, depth = self.bare[at], 0
        closes = {"(": ")", "[": "]", "{": "}"}[opens]
        for found in re.compile(f"[{re.escape(opens + closes)}]").finditer(self.bare, at):
            depth += 1 if found[0] == opens else -1
            if not depth:
                return found.end()
        raise self.fault(at, "a bracket has no other")

    def find(self, at, wanted):
        """The place of the next text of this form that no brackets hold."""
        pattern = re.compile(rf"(?P<wanted>{wanted})|[(\[{{]")
        while True:
            found = pattern.search(self.bare, at)
            if not found:
                raise self.fault(at, f"nothing of the form {wanted} follows")
            if found["wanted"]:
                return found.start()
            at = self.behind(found.start())

    def past_space(self, at):
        return re.compile(r"\s*").match(self.bare, at).end()

    def fault(self, at, why):
        line = self.bare.count("\n", 0, at) + 1
        return ValueError(f"{os.path.relpath(self.path, crates.ROOT)}:{line}: {why}")

    def items(self, at, end):
        """The items from here to there."""
        while (at := self.past_space(at)) < end:
            item, at = self.item(at)
            yield item

    def item(self, at):
        """The item that begins here, and where it ends."""
        attributes = []
        while re.compile(r"#!?\[").match(self.bare, at):
            close = self.behind(self.bare.index("[", at))
            attributes.append(flat(self.code[at:close]))
            at = self.past_space(close)
        head = HEAD.match(self.bare, at)
        if not head:
            return self.end_of_attributes(attributes, at)
        kind = head["kind"] or head["item"] or "macro"
        close, inside, end = self.ends(kind, head.end())
        reach = re.sub(r"\s+", "", head["reach"] or "")
        return Item(kind, head["name"] or "", reach, attributes, self.code[at:close].strip(), inside), end

    def end_of_attributes(self, attributes, at):
        """Attributes of the whole file, which belong to no item."""
        if not attributes or not all(it.startswith("#!") for it in attributes):
            raise self.fault(at, "no item begins so")
        return Item("attributes", "", "", attributes, "", (at, at)), at

    def ends(self, kind, at):
        """Where an item's head ends, what its brackets hold, and where the item ends."""
        if kind == "fn":
            return self.ends_of_function(at)
        if kind == "macro":
            open_ = self.find(at, r"[(\[{]")
            close = self.behind(open_)
            return open_, (open_ + 1, close - 1), close if self.bare[open_] == "{" else self.find(close, ";") + 1
        stop = self.find(at, r"\{" if kind in BLOCKS else r"[{;]" if kind in ("struct", "mod") else ";")
        if self.bare[stop] == ";":
            return stop, (stop, stop), stop + 1
        close = self.behind(stop)
        return stop, (stop + 1, close - 1), close

    def ends_of_function(self, at):
        close = stop = self.find(at, rf"\b{CLAUSE.pattern}|[{{;]")
        while CLAUSE.match(self.bare, stop):
            stop = self.past_space(self.behind(self.bare.index("{", stop)))
        if self.bare[stop] not in "{;":
            raise self.fault(stop, "neither a clause nor a body")
        end = self.behind(stop) if self.bare[stop] == "{" else stop + 1
        return close, (stop, stop), end

    def parts(self, at, end):
        """The fields or cases from here to there, each with its attributes taken away."""
        depth, start, found = 0, at, []
        while at < end:
            sign = self.bare[at]
            depth += (sign == "<") - (sign == ">" and self.bare[at - 1] not in "-=")
            if sign == "," and not depth:
                found.append((start, at))
                start = at + 1
            at = self.behind(at) if sign in "([{" else at + 1
        return [it for it in map(self.part, [*found, (start, end)]) if self.bare[it[0]:it[1]].strip()]

    def part(self, place):
        """Where a field or case stands behind its attributes."""
        at, end = self.past_space(place[0]), place[1]
        while at < end and self.bare[at] == "#":
            at = self.past_space(self.behind(self.bare.index("[", at)))
        return at, end


def blank(text):
    return re.sub(r"[^\n]", " ", text)


def flat(text):
    """A text in one line: one space between words, none within brackets, no comma before a closing one."""
    text = re.sub(r"\s+", " ", text).strip()
    return re.sub(r",? ?([)>\]])", r"\1", re.sub(r"([(<\[]) ", r"\1", text))


class Module:
    """A module of a crate: its items in their order, and the modules within it."""

    def __init__(self, text, span, folder, path=(), parent=None):
        self.text, self.path, self.parent = text, path, parent
        self.items = [it for it in text.items(*span) if not it.is_for_tests]
        self.children = {it.name: self.child(it, folder) for it in self.items if it.kind == "mod"}
        self.own = {it.name for it in self.items if it.name and it.kind not in ("mod", "use", "impl")}
        self.used = {alias: path for it in self.items if it.kind == "use" for path, alias in leaves(it.head)}

    def child(self, item, folder):
        path = (*self.path, item.name)
        if item.inside[0] < item.inside[1]:
            return Module(self.text, item.inside, f"{folder}/{item.name}", path, self)
        found = [it for it in (f"{folder}/{item.name}.rt", f"{folder}/{item.name}/mod.rt") if os.path.isfile(it)]
        if not found:
            raise ValueError(f"{os.path.relpath(self.text.path, crates.ROOT)}: there is no file of the module {item.name}")
        text = Text(found[0])
        return Module(text, (0, len(text.bare)), f"{folder}/{item.name}", path, self)

    def all(self):
        """This module and each within it, in the order of the sources."""
        return [self, *(it for child in self.children.values() for it in child.all())]

    def public(self):
        """This module and each within it that a user of the crate can name through it."""
        named = [it.name for it in self.items if it.kind == "mod" and it.is_public]
        return [self, *(it for name in named for it in self.children[name].public())]

    def resolve(self, path, seen=()):
        """The module and the name that a path leads to from here, with no name where it is a module; None where it leads out of the crate."""
        first, rest = path[0], path[1:]
        if first in ("crate", "self", "super"):
            return self.ancestor(first).walk(rest, seen)
        if first in self.children or first in self.own:
            return self.walk(path, seen)
        if first in self.used and (self.path, first) not in seen:
            return self.resolve((*self.used[first], *rest), (*seen, (self.path, first)))
        return None

    def ancestor(self, word):
        if word == "crate":
            return self.parent.ancestor(word) if self.parent else self
        return self.parent if word == "super" else self

    def walk(self, path, seen):
        """Where a path leads that begins with a name of this module."""
        if not path:
            return self, None
        first, rest = path[0], path[1:]
        if first in self.children:
            return self.children[first].walk(rest, seen)
        if first in self.own:
            return self, first
        return self.resolve(path, seen) if first in self.used else None


def leaves(head):
    """Each path that a `use` names, with the name that it gives it."""
    text = flat(re.sub(r"^(pub\s*(\([^)]*\))?\s*)?use\b", "", head))
    return list(leaves_of("", text))


def leaves_of(prefix, text):
    open_ = text.find("{")
    if open_ >= 0:
        for part in split(text[open_ + 1:text.rindex("}")]):
            yield from leaves_of(prefix + text[:open_], part)
        return
    path, _, alias = text.partition(" as ")
    parts = [it for it in (prefix + path).split("::") if it]
    parts = parts[:-1] if parts[-1] == "self" and len(parts) > 1 else parts
    yield tuple(it.strip() for it in parts), alias.strip() or parts[-1].strip()


def split(text):
    """The parts between commas that no braces hold."""
    depth, parts = 0, [""]
    for sign in text:
        depth += (sign == "{") - (sign == "}")
        parts, sign = ([*parts, ""], "") if sign == "," and not depth else (parts, sign)
        parts[-1] += sign
    return [it.strip() for it in parts if it.strip()]


def load(name):
    """The root module of a library crate."""
    folder = f"{crates.ROOT}/crates/{name}/src"
    text = Text(f"{folder}/lib.rt")
    return Module(text, (0, len(text.bare)), folder)
