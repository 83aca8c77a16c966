#!/usr/bin/env python3
"""Looks that the commands of the README do what it says, in a fresh clone.

check_commands.py: in a clone of this repository's last commit, one after the other: the first command, whose output has
to be the report that stands behind it, with a note on standard error that no proved program is there; ./prove; the first
command again, now without a note and within a second; and the second command, which has to end with 0 behind lines
`N passed, 0 failed`. It says how long each took; ./prove and the gate take hours of processor time.
check_commands.py --without-proof: the first command alone, in a minute or two.

It ends with 1 where a command does something else. What `rt` has proved on this machine before counts here too, so a
machine on which nothing was proved is the one to measure on.
"""

import pathlib
import re
import subprocess
import sys
import tempfile
import time

TOP = pathlib.Path(__file__).resolve().parent.parent
COMMANDS = re.compile(r"^## Two commands$.*?^    (\./tipc_sim run < \S+)\n    (\S+)$", re.MULTILINE | re.DOTALL)
REPORT = re.compile(r"(?:^    [0-9]+ [^\n]*\n)+", re.MULTILINE)
PASSED = re.compile(r"^\d+ passed, 0 failed", re.MULTILINE)
NOTE = "unproved"
PARTS_OF_THE_GATE = 6


class Failed(Exception):
    """A command did something else than the README says."""


def commands() -> tuple:
    """The two commands, and the report of the first."""
    page = (TOP / "README.md").read_text(encoding="utf-8")
    found = COMMANDS.search(page)
    report = found and REPORT.search(page, found.end())
    if not report:
        raise Failed("README.md hasn't two commands with a report behind them")
    return found[1], found[2], re.sub("(?m)^    ", "", report[0])


def run(command: str, clone: pathlib.Path, said=subprocess.PIPE) -> subprocess.CompletedProcess:
    """Runs a command in the clone, and tells how long it took. Its standard error is kept, or goes where it is told."""
    begun = time.monotonic()
    ended = subprocess.run(["sh", "-c", command], cwd=clone, stdout=subprocess.PIPE, stderr=said, text=True, check=False)
    print(f"{command}: status {ended.returncode} after {time.monotonic() - begun:.1f} seconds", flush=True)
    return ended


def answers(command: str, clone: pathlib.Path, report: str) -> str:
    """What the first command says on standard error, where it prints the report and ends with 0."""
    ended = run(command, clone)
    if ended.returncode or ended.stdout != report:
        raise Failed(f"it printed {ended.stdout[:300]!r}, and said {ended.stderr[-300:]!r}")
    return ended.stderr


def prove(clone: pathlib.Path, command: str, report: str):
    """Makes the proved program, which then answers by itself. How far ./prove is stands on standard error meanwhile."""
    if run("./prove", clone, said=None).returncode:
        raise Failed("./prove didn't end with 0")
    begun = time.monotonic()
    said = answers(command, clone, report)
    if said or time.monotonic() - begun > 1:
        raise Failed(f"the proved program took more than a second, or this was said: {said!r}")


def gate(command: str, clone: pathlib.Path):
    ended = run(command, clone)
    parts = len(PASSED.findall(ended.stdout))
    if ended.returncode or parts < PARTS_OF_THE_GATE:
        raise Failed(f"{parts} parts of the gate passed; it ended so: {ended.stdout[-600:]!r}")


def check(is_quick: bool):
    first, second, report = commands()
    with tempfile.TemporaryDirectory(prefix="commands-") as room:
        clone = pathlib.Path(room) / "clone"
        subprocess.run(["git", "clone", "--quiet", str(TOP), str(clone)], check=True)
        said = answers(first, clone, report)
        if said.count("\n") != 2 or NOTE not in said or "./prove" not in said:
            raise Failed(f"standard error has no two lines about the proved program, but {said!r}")
        if not is_quick:
            prove(clone, first, report)
            gate(second, clone)


def main(words: list) -> int:
    if words not in ([], ["--without-proof"]):
        print(__doc__, file=sys.stderr)
        return 2
    try:
        check(is_quick=bool(words))
    except (Failed, OSError, subprocess.CalledProcessError) as error:
        print(f"FAILED: {error}")
        return 1
    print("the commands do what the README says")
    return 0


if __name__ == "__main__":
    sys.exit(main(sys.argv[1:]))
