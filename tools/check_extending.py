#!/usr/bin/env python3
"""Looks that docs/EXTENDING.md names every file that a line of the script touches.

check_extending.py: the files of the first table have to be just those of tipc_script, tipc_sim and their tests that
know of the last line that was added, `cancel`; and each path that the page has in backticks has to be there.
"""

import pathlib
import re
import sys

TOP = pathlib.Path(__file__).resolve().parent.parent
PAGE = TOP / "docs" / "EXTENDING.md"
CRATES = ("tipc_script", "tipc_sim", "tipc_text_tests")
LAST_LINE = re.compile("cancel", re.IGNORECASE)
ROW = re.compile(r"^\| `(crates/[\w./]+)` \|", re.MULTILINE)
PATH = re.compile(r"`((?:crates/tipc_\w+|docs|rows|tools|examples)/[\w./]*)`")


def touched() -> set:
    """The files that know of the line."""
    folders = [TOP / "crates" / crate / kind for crate in CRATES for kind in ("src", "specs", "proofs")]
    paths = [path for folder in folders for path in folder.glob("**/*.*") if path.suffix in (".rt", ".antt")]
    known = (path for path in paths if LAST_LINE.search(path.read_text(encoding="utf-8")))
    return {str(path.relative_to(TOP)) for path in known}


def main() -> int:
    page = PAGE.read_text(encoding="utf-8")
    listed, there = set(ROW.findall(page)), touched()
    faults = [f"{path} knows of the line, and isn't in the table" for path in sorted(there - listed)]
    faults += [f"{path} is in the table, and doesn't know of the line" for path in sorted(listed - there)]
    paths = set(PATH.findall(page))
    faults += [f"{path} isn't there" for path in sorted(paths) if not (TOP / path).exists()]
    for fault in faults:
        print(fault)
    print(f"{len(listed)} files of a line and {len(paths)} paths looked at, {len(faults)} faults")
    return 1 if faults or not listed else 0


if __name__ == "__main__":
    sys.exit(main())
