#!/usr/bin/env python3
"""Builds frames back from what the program's `dissect` tells of them, and compares them with what they were.

check_frames.py PROGRAM: the frames of the rows for `dissect` that are stored, and 2,000 drawn ones (tools/random_frames.py).
Where a text has all fields of a frame, each place of it gets what its field tells, and every other bit is zero; the bytes
have to be those that were dissected. It ends with a line `N frames passed, M failed`, and fails too where no frame of some
user and type was among them.
"""

import pathlib
import sys

import dissecting
import random_frames

ROWS = pathlib.Path(__file__).resolve().parent.parent / "rows"
SEED, DRAWN = 2, 2_000
VERSION = 2 << 29
# By name, the word of a field and its lowest bit.
PLACES = {
    "user": (0, 25), "words": (0, 21), "non-sequenced": (0, 20), "destination-droppable": (0, 19), "source-droppable": (0, 18),
    "size": (0, 0), "type": (1, 29), "code": (1, 25), "reroute": (1, 21), "scope": (1, 19), "gap": (1, 16), "broadcast-ack": (1, 0),
    "ack": (2, 16), "sequence": (2, 0), "previous": (3, 0), "origin-port": (4, 0), "destination-port": (5, 0), "origin-node": (6, 0),
    "destination-node": (7, 0), "name-type": (8, 0), "lower": (9, 0), "upper": (10, 0), "next": (4, 16), "broadcast-next": (4, 0),
    "broadcast-start": (5, 16), "broadcast-gap": (5, 0), "probe": (8, 0), "in-step": (8, 1), "priority": (8, 2), "count": (4, 16),
    "inner-number": (4, 0), "old-bearer": (5, 0), "fragment": (4, 0), "network": (4, 0),
}
# Numbers of 64 bits: those of the envelope, and those behind a header.
ENVELOPE, BEHIND = ("envelope-first", "envelope-second"), ("contact", "peer-contact", "old-epoch")


def number_of(value: str) -> int:
    """A number, or an address as its word."""
    zone, *others = (int(part) for part in value.split("."))
    return zone << 24 | others[0] << 12 | others[1] if others else zone


def bytes_of(value: str) -> bytes:
    return b"" if value == "-" else bytes.fromhex(value)


def longs(packet: dissecting.Packet, names: tuple) -> bytes:
    return b"".join(packet.number(name).to_bytes(8, "big") for name in names if packet.values(name))


def packet_of(packet: dissecting.Packet, inside: dissecting.Packet) -> bytes:
    """The bytes of a packet, and of the one inside it, if any."""
    words = [0] * packet.number("words")
    words[0] = VERSION
    for name, value in packet.fields:
        if name in PLACES:
            place, low = PLACES[name]
            words[place] |= number_of(value) << low
    out = b"".join(word.to_bytes(4, "big") for word in words) + longs(packet, BEHIND)
    out += b"".join(int(word).to_bytes(4, "big") for item in packet.values("item") for word in item.split(","))
    out += bytes_of(packet.value("rest") or "-")
    inner = packet.value("inner")
    return out + (packet_of(inside, None) if inside else bytes_of(inner.removeprefix("bad ")) if inner.startswith("bad") else b"")


def frame_of(told: dissecting.Told) -> bytes:
    return longs(told.packet, ENVELOPE) + packet_of(told.packet, told.inside)


def lines_of_rows() -> list:
    """The stored lines of the rows that are dissected to their end."""
    names = (path for path in sorted(ROWS.glob("*.words")) if path.read_text() == "dissect\n")
    scripts = (path.with_suffix(".script") for path in names if not path.with_suffix(".status").exists())
    return [line for path in scripts if path.exists() for line in path.read_text().splitlines()]


def main(words: list) -> int:
    if len(words) != 1:
        print(__doc__, file=sys.stderr)
        return 1
    frames = random_frames.Frames(SEED)
    lines = lines_of_rows() + [frames.line() for _ in range(DRAWN)]
    passed, failed, kinds = 0, 0, set()
    for line, told in zip(lines, dissecting.dissect(words[0], lines)):
        if told.packet is None:
            continue
        kinds.add((told.packet.user(), told.packet.number("type")))
        if frame_of(told).hex() == line:
            passed += 1
        else:
            failed += 1
            print(f"{line}: built back {frame_of(told).hex()}")
    for user, types in random_frames.TYPES.items():
        missing = {(user, kind) for kind in range(types)} - kinds
        failed += len(missing)
        print("".join(f"no frame of user {user} and type {kind}\n" for _, kind in sorted(missing)), end="")
    print(f"{passed} frames passed, {failed} failed")
    return 1 if failed else 0


if __name__ == "__main__":
    sys.exit(main(sys.argv[1:]))
