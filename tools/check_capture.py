#!/usr/bin/env python3
"""Compares what tshark shows of frames by tools/tipc.lua with what the program's `dissect` tells of them.

check_capture.py PROGRAM: the frames of every example and 2,000 drawn ones (tools/random_frames.py), each as a datagram of
a capture file (tools/capture.py). Of each both must have the same fields with the same values, in the same order, or the
same fault. And the lines of tshark in README.md have to be what it prints of examples/first_message.txt. It ends with a
line `N frames passed, M failed`. Where tshark isn't installed it says so, compares nothing and
ends with status 0; Debian has it in a package of that name. The gate doesn't run it.
"""

import json
import pathlib
import re
import shutil
import subprocess
import sys
import tempfile

import capture
import dissecting
import random_frames
import tracing

TOP = pathlib.Path(__file__).resolve().parent.parent
LUA = TOP / "tools" / "tipc.lua"
PROTOCOL = "tipc2"
SEED, DRAWN = 1, 2_000
SECONDS = 300


def frames_of_examples(program: str) -> list:
    """The frames of the examples; the same bytes once."""
    found = {}
    for path in sorted((TOP / "examples").glob("*.txt")):
        lines = path.read_text(encoding="utf-8").splitlines()
        found.update((datagram.frame, None) for datagram in capture.datagrams_of(program, lines))
    return list(found)


def drawn_frames() -> list:
    """Drawn frames. A datagram without bytes has nothing to show."""
    frames = random_frames.Frames(SEED)
    lines = [frames.line() for _ in range(DRAWN)]
    return [bytes.fromhex(line) for line in lines if line and not line.startswith("#")]


def flat(pairs: list) -> list:
    """The fields of a tree in order; what is below a field stands behind it."""
    found = []
    for key, value in pairs:
        if isinstance(value, list):
            found += flat(value)
        elif key.startswith(f"{PROTOCOL}."):
            found.append((key.removeprefix(f"{PROTOCOL}."), value))
    return found


def shown(frames: list) -> list:
    """What tshark shows of each frame."""
    datagrams = [capture.Datagram(0, 1, 2, frame, place, "") for place, frame in enumerate(frames)]
    with tempfile.NamedTemporaryFile(suffix=".pcapng") as file:
        file.write(capture.capture(datagrams))
        file.flush()
        command = ["tshark", "-X", f"lua_script:{LUA}", "-r", file.name, "-T", "json", "-J", PROTOCOL]
        ended = subprocess.run(command, capture_output=True, timeout=SECONDS, check=True)
    found = []
    for packet in json.loads(ended.stdout, object_pairs_hook=lambda pairs: pairs):
        layers = dict(dict(packet)["_source"])["layers"]
        found.append(next((flat(fields) for name, fields in layers if name == PROTOCOL), []))
    return found


def wrong_lines(program: str) -> list:
    """The lines of the README that tshark doesn't print."""
    lines = (TOP / "examples" / "first_message.txt").read_text(encoding="utf-8").splitlines()
    with tempfile.NamedTemporaryFile(suffix=".pcapng") as file:
        file.write(capture.capture(list(capture.datagrams_of(program, lines))))
        file.flush()
        ended = subprocess.run(["tshark", "-X", f"lua_script:{LUA}", "-r", file.name], capture_output=True, timeout=SECONDS, check=True)
    printed = [line.split() for line in ended.stdout.decode("utf-8", "replace").splitlines()]
    told = re.findall(r"^ +\d+ .* TIPC2 .*$", (TOP / "README.md").read_text(encoding="utf-8"), re.MULTILINE)
    return [line.strip(" ") for line in told if line.split() not in printed] if told else ["README.md has no line of tshark"]


def as_shown(told: dissecting.Told) -> list:
    """What is told of a frame, in tshark's words: bytes have colons between them, and no bytes no field."""
    first, *lines = told.text.splitlines()
    words = first.split(" ")[1:]
    if words[0] != "frame":
        return [("fault", " ".join(words[1:]) or words[0])]
    found = []
    for line in lines:
        name, _, value = line.strip(" ").partition(" ")
        if name == "rest":
            value = "" if value == "-" else ":".join(value[place : place + 2] for place in range(0, len(value), 2))
        if name == "inner":
            value = value.split(" ")[0]
        if value:
            found.append((name.replace("-", "_"), value))
    return found


def is_same(told: list, seen: list) -> bool:
    """Whether tshark shows what is told. Of a packet with a fault it shows the envelope too."""
    is_fault = told[0][0] == "fault"
    return told == [field for field in seen if not (is_fault and field[0].startswith("envelope"))]


def compare(program: str) -> int:
    frames = frames_of_examples(program) + drawn_frames()
    told = dissecting.dissect(program, [frame.hex() for frame in frames])
    seen, failed = shown(frames), 0
    for frame, text, fields in zip(frames, told, seen):
        if not is_same(as_shown(text), fields):
            failed += 1
            print(f"{frame.hex()}\n  told:  {as_shown(text)}\n  shown: {fields}")
    failed += abs(len(frames) - len(seen))
    for line in wrong_lines(program):
        failed += 1
        print(f"not printed: {line}")
    print(f"{len(frames) - failed} frames passed, {failed} failed")
    return 1 if failed else 0


def main(words: list) -> int:
    if len(words) != 1:
        print(__doc__, file=sys.stderr)
        return 1
    if shutil.which("tshark") is None:
        print("tshark isn't installed, so nothing was compared")
        return 0
    try:
        return compare(words[0])
    except (tracing.CannotTrace, dissecting.NotDissected, OSError, subprocess.SubprocessError) as error:
        print(f"check_capture.py: {error}", file=sys.stderr)
        return 2


if __name__ == "__main__":
    sys.exit(main(sys.argv[1:]))
