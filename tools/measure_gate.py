#!/usr/bin/env python3
"""Measures what `rt ci` costs, crate by crate, in processor minutes.

measure_gate.py: a table of all crates, lowest first: the proof, the tests and the must-fail edits, each as user and system time of
all its processes. It runs `rt ci` in a copy of the repository, one check a processor as .ci/run does, reads twice a second from /proc what each process has taken
until then, and ends with its status. Run it on a machine that does nothing else: beside other work a processor minute does less. Where
`rt` keeps what it has proved for the next run, run it on a fresh machine.
"""

import collections
import os
import shutil
import subprocess
import sys
import tempfile
import time
from pathlib import Path

TOP = Path(__file__).resolve().parent.parent
KINDS = ("proof", "tests", "edits")
TICKS = os.sysconf("SC_CLK_TCK")


def crates_of(text: str) -> list:
    """The crates of crates.txt, each behind those that it stands on."""
    below = {}
    for line in text.splitlines():
        name, colon, parts = line.partition(":")
        if colon and not line.startswith("#"):
            below[name.split()[0]] = parts.split()
    ordered = []

    def visit(name: str) -> None:
        if name in below and name not in ordered:
            for part in below[name]:
                visit(part)
            ordered.append(name)

    for name in below:
        visit(name)
    return ordered


def kind_of(words: list, folder: str) -> str:
    """What a check is for. An edit is checked in a folder of its own."""
    if "rt-edit" in folder:
        return "edits"
    return "tests" if "--test" in words else "proof"


def look(pid: str) -> tuple:
    """The crate that a process works on, what for, when it began, and its processor seconds. Any process may end meanwhile."""
    words = Path("/proc", pid, "cmdline").read_bytes().decode(errors="replace").split("\0")
    name = words[words.index("--crate-name") + 1]
    folder = os.readlink(f"/proc/{pid}/cwd")
    fields = Path("/proc", pid, "stat").read_text().rpartition(")")[2].split()
    return name, kind_of(words, folder), fields[19], (int(fields[11]) + int(fields[12])) / TICKS


def sample(taken: dict) -> None:
    """Notes what each check that runs now has taken."""
    for pid in filter(str.isdigit, os.listdir("/proc")):
        try:
            name, kind, began, seconds = look(pid)
        except (OSError, ValueError, IndexError):
            continue
        taken[pid, began, name, kind] = seconds


def print_table(taken: dict, wall: float) -> None:
    """The table, in minutes."""
    sums = collections.Counter()
    for (_, _, name, kind), seconds in taken.items():
        sums[name, kind] += seconds / 60
        sums["all", kind] += seconds / 60
    print("| Crate | Proof | Tests | Edits |\n|---|---|---|---|")
    for name in [*crates_of((TOP / "crates.txt").read_text()), "all"]:
        print(f"| {name} | " + " | ".join(f"{sums[name, kind]:.1f}" for kind in KINDS) + " |")
    print(f"{sum(sums['all', kind] for kind in KINDS):.0f} processor minutes, {wall / 60:.0f} minutes by the clock")


def main() -> int:
    with tempfile.TemporaryDirectory(prefix="measure-gate-") as room:
        top = Path(room) / "repository"
        shutil.copytree(TOP, top, ignore=shutil.ignore_patterns("out", ".git"))
        (top / ".git").mkdir()
        taken, start = {}, time.monotonic()
        lanes = {"RT_JOBS": str(len(os.sched_getaffinity(0))), **os.environ}
        with subprocess.Popen(["rt", "ci"], cwd=top, env=lanes) as gate:
            while gate.poll() is None:
                sample(taken)
                time.sleep(0.5)
        print_table(taken, time.monotonic() - start)
        return gate.returncode


if __name__ == "__main__":
    sys.exit(main())
