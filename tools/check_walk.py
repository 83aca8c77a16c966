#!/usr/bin/env python3
"""Looks that the walks of docs/WALK.md go as the code calls.

check_walk.py: prints each fault, and a line `N calls looked at, F faults`.

A block that begins with ```calls has a function on each line, each deeper by two spaces than its caller. It says in
brackets where it stands, `(tipc_x src/file)`, or `(src/file)` in its caller's crate; else it stands in its caller's
file. There is just one function of that name there, or just one that is of no type, and the caller's body calls it.
The first function of a block is that with which the page begins, or stands in an earlier block of it. And each
function that the words of a walk give with its place in src/ stands in one of the walk's blocks, laws aside.
"""

import pathlib
import re
import sys
from typing import NamedTuple

import check_names

TOP = pathlib.Path(__file__).resolve().parent.parent
PAGE = TOP / "docs" / "WALK.md"
BLOCK = re.compile(r"^```calls\n(.*?)^```$", re.MULTILINE | re.DOTALL)
LINE = re.compile(r"^( *)((?:\w+::)?(\w+))(?: \((?:(tipc_\w+) )?src/([\w/]+)\))?$")
PLACED = re.compile(r"`(?:\w+::)*([a-z_]\w*)`,? \(?(?:(tipc_\w+),? )?src/([\w/]+)")
OWNER = re.compile(r"(?:impl(?:<.*?>)? (?:[\w:]+(?:<.*?>)? for )?|trait )(\w+)")


class Function(NamedTuple):
    """A function of src/: where it stands, its type or nothing, its name, and its body."""

    crate: str
    file: str
    owner: str
    name: str
    body: str


def functions_of(crate: str, file: str) -> list:
    """The functions of a file of src/."""
    path = TOP / "crates" / crate / "src" / f"{file}.rt"
    if not path.is_file():
        return []
    text, found = check_names.without_blocks(path.read_text(encoding="utf-8")), []
    blocks = check_names.blocks_of(text)
    for name in check_names.FUNCTION.finditer(text):
        opening = text.find("{", name.end())
        heads = [head for begin, end, head in blocks if begin <= name.start() < end]
        owner = OWNER.match(heads[-1]) if heads else None
        found.append(Function(crate, file, owner[1] if owner else "", name[1], text[opening : check_names.end_of(text, opening)]))
    return found


def is_called(name: str, body: str) -> bool:
    """Whether a body calls a function of this name, or hands it on."""
    return bool(re.search(rf"(?<![\w])(?<!fn ){name}(?:::<[^()]*>)?\(|[(,=]\s*(?:\w+::)*{name}\s*[,)]", body))


def looked_up(crate: str, file: str, path: str) -> list:
    owner, _, name = path.rpartition("::")
    there = [it for it in functions_of(crate, file) if it.name == name and (not owner or it.owner == owner)]
    free = [it for it in there if not it.owner]
    return free if len(there) > 1 and len(free) == 1 else there


class Walk:
    """A walk of the page: its functions, those of the page so far, and what is wrong with it."""

    def __init__(self, title: str, before: set):
        self.title = title
        self.before = set(before)
        self.seen = set()
        self.calls = 0
        self.faults = []

    def fault(self, text: str):
        self.faults.append(f"{self.title}: {text}")

    def take_block(self, block: str):
        """Each line below its caller, which stands nearest above it with two spaces less."""
        above = []
        for line in block.splitlines():
            found = LINE.match(line)
            if not found:
                self.fault(f"{line!r} is no line of calls")
                return
            depth = len(found[1]) // 2
            caller = above[depth - 1] if 0 < depth <= len(above) else None
            if depth > len(above) or depth and not caller:
                self.fault(f"{found[2]} has no caller")
                return
            function = self.take(found, caller)
            if not function:
                return
            above = [*above[:depth], function]

    def take(self, found: "re.Match", caller):
        """The function of a line, which its caller calls."""
        crate = found[4] or (caller.crate if caller else "")
        file = found[5] or (caller.file if caller else "")
        there = looked_up(crate, file, found[2])
        if len(there) != 1:
            self.fault(f"{len(there)} functions are {found[2]} in {crate} src/{file}")
            return None
        function = there[0]
        self.calls += 1
        place = (function.crate, function.file, function.name)
        if caller and not is_called(function.name, caller.body):
            self.fault(f"{caller.name} ({caller.crate} src/{caller.file}) doesn't call {found[2]}")
        if not caller and self.before | self.seen and place not in self.before | self.seen:
            self.fault(f"{found[2]} begins a block, and stands in none before it")
        self.seen.add(place)
        return function

    def take_words(self, crates: list, text: str):
        """The functions that the words of a part give with their place."""
        for name, crate, file in PLACED.findall(text):
            there = [it for of in ([crate] if crate else crates) for it in looked_up(of, file, name)]
            is_law = all(re.fullmatch(r"\{\s*\}", it.body) for it in there)
            if there and not is_law and not any((it.crate, it.file, it.name) in self.seen for it in there):
                self.fault(f"`{name}` ({' '.join(dict.fromkeys(it.crate for it in there))} src/{file}) stands in no block of calls")


def main() -> int:
    walks = []
    for part in re.split(r"(?m)^# ", PAGE.read_text(encoding="utf-8"))[2:]:
        walk = Walk(part.partition("\n")[0], {place for walk in walks for place in walk.seen})
        sections = re.split(r"(?m)^## ", part)[1:]
        for section in sections:
            for block in BLOCK.findall(section):
                walk.take_block(block)
        for section in sections:
            heading, _, text = section.partition("\n")
            walk.take_words(re.findall(r"tipc_\w+", heading), re.sub(r"\n *", " ", BLOCK.sub("", text)))
        if not walk.calls:
            walk.fault("it has no block of calls")
        walks.append(walk)
    for walk in walks:
        for fault in walk.faults:
            print(fault)
    faults, calls = sum(len(walk.faults) for walk in walks), sum(walk.calls for walk in walks)
    print(f"{calls} calls looked at, {faults} faults")
    return 1 if faults or not walks else 0


if __name__ == "__main__":
    sys.exit(main())
