#!/usr/bin/env python3
"""Reads what `tipc_sim dissect` tells of frames.

dissecting.py PROGRAM FILE: a line for each line of FILE, which are frames in hexadecimal: what the frame is.

The tools decode no frame by themselves: they ask the program, and know a frame by the names of its fields alone
(docs/FORMATS.md).
"""

import pathlib
import subprocess
import sys
from typing import Iterator, NamedTuple, Optional

SECONDS = 60
# What the program takes at once.
MOST_BYTES, MOST_LINES = 16_777_216, 65_536
PAYLOAD, BUNDLER, LINK_PROTOCOL, CHANGEOVER, NAMES, FRAGMENTER, DISCOVERY = (0, 1, 2, 3), 6, 7, 10, 11, 12, 13
IMPORTANCES = ("low", "medium", "high", "critical")
FORMS = ("connected", "multicast", "named", "direct")
TYPES = {
    LINK_PROTOCOL: ("STATE", "RESET", "ACTIVATE"),
    CHANGEOVER: ("duplicate", "original"),
    NAMES: ("publication", "withdrawal"),
    FRAGMENTER: ("first", "middle", "last"),
    DISCOVERY: ("request", "response"),
}


class NotDissected(Exception):
    """The program doesn't tell of each line, or tells it in other words."""


class Packet(NamedTuple):
    """A packet: its fields, each a name and a value, in the order of their lines."""

    fields: list

    def values(self, name: str) -> list:
        """The values of the fields with this name: of items there are several, of another field one, or none."""
        return [value for other, value in self.fields if other == name]

    def value(self, name: str) -> str:
        """The value of a field; nothing where the packet has none."""
        return next(iter(self.values(name)), "")

    def number(self, name: str) -> int:
        """The value of a field that is a number; 0 where the packet has none."""
        return int(self.value(name) or "0")

    def user(self) -> int:
        return self.number("user")

    def kind(self) -> str:
        """What the packet is."""
        user = self.user()
        if user in PAYLOAD:
            return "payload"
        if user == BUNDLER:
            return "bundle"
        if user == NAMES:
            return "names"
        if user == FRAGMENTER:
            return "fragment"
        return TYPES[user][self.number("type")]

    def name(self) -> str:
        """What the packet is, with its number where it has one."""
        return " ".join([self.kind(), *self.values("sequence")])


class Told(NamedTuple):
    """What is told of a line: its text, its packet where it is a frame, and the packet inside that."""

    text: str
    packet: Optional[Packet] = None
    inside: Optional[Packet] = None

    def inner_name(self) -> str:
        """What a tunnel packet carries; nothing of any other."""
        if self.packet is None:
            return ""
        return self.inside.name() if self.inside else self.packet.value("inner").partition(" ")[0]

    def name(self) -> str:
        """What the frame is, or why it is none."""
        if self.packet is None:
            return self.text.partition(" ")[2].rstrip("\n")
        if self.packet.user() == BUNDLER:
            return f"{self.packet.name()} ({self.packet.value('count')} packets)"
        return f"{self.packet.name()} ({self.inner_name()})" if self.inner_name() else self.packet.name()


def told_of(lines: list) -> Told:
    """What some lines tell of a frame, the first of which begins with its number."""
    packets = {1: [], 2: []}
    for line in lines[1:]:
        name, space, value = line.lstrip(" ").partition(" ")
        depth = len(line) - len(line.lstrip(" "))
        if depth not in packets or not space:
            raise NotDissected(f"{line!r} is no field")
        packets[depth].append((name, value))
    is_frame = lines[0].split(" ")[1] == "frame"
    inside = Packet(packets[2]) if packets[2] else None
    return Told("\n".join(lines) + "\n", Packet(packets[1]) if is_frame else None, inside)


def read(report: str) -> list:
    """What a report tells of each line, in order."""
    parts = []
    for line in report.splitlines():
        if line.startswith(" ") and parts:
            parts[-1].append(line)
        else:
            parts.append([line])
    return [told_of(part) for part in parts]


def batches(lines: list) -> Iterator[list]:
    """The lines in batches, each of which the program takes at once."""
    batch, size = [], 0
    for line in lines:
        if batch and (size + len(line) >= MOST_BYTES or len(batch) == MOST_LINES):
            yield batch
            batch, size = [], 0
        batch.append(line)
        size += len(line) + 1
    if batch:
        yield batch


def dissect(program: str, lines: list) -> list:
    """What the program tells of each of these lines."""
    told = []
    for batch in batches(lines):
        text = "".join(f"{line}\n" for line in batch).encode("ascii")
        ended = subprocess.run([program, "dissect"], input=text, capture_output=True, timeout=SECONDS, check=False)
        told += read(ended.stdout.decode("ascii", "replace"))
        if ended.returncode != 0:
            raise NotDissected(f"status {ended.returncode} behind {len(told)} of {len(lines)} lines")
    return told


def main(words: list) -> int:
    if len(words) != 2:
        print(__doc__, file=sys.stderr)
        return 1
    try:
        told = dissect(words[0], pathlib.Path(words[1]).read_text(encoding="ascii").splitlines())
    except (NotDissected, OSError) as error:
        print(f"dissecting.py: {error}", file=sys.stderr)
        return 2
    for number, line in enumerate(told, 1):
        print(number, line.name())
    return 0


if __name__ == "__main__":
    sys.exit(main(sys.argv[1:]))
