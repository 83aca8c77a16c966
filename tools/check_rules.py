#!/usr/bin/env python3
"""Looks up each name of docs/RULE_TABLE.md: definitions, functions, laws and wrong bodies.

check_rules.py: prints each name that isn't at its place, and a line `N names found, M not`. It fails where one isn't.
"""

import pathlib
import re
import sys

ROOT = pathlib.Path(__file__).resolve().parent.parent
PLACED = re.compile(r"((?:`[^`]+`, )+)(tipc_\w+)(?: (specs|src)/([\w/]+))?")


def is_there(name, crate, folder, file):
    """Whether the name stands where the table says."""
    base = ROOT / "crates" / crate
    if folder is None:
        return any((base / kind / f"{name}.edit").is_file() for kind in ("must-fail", "wrong-bodies"))
    suffix = "antt" if folder == "specs" else "rt"
    path = base / folder / f"{file}.{suffix}"
    if not path.is_file():
        return False
    word = re.escape(name)
    kinds = r"(?:pub )?(?:record|data|abbrev|unfoldable)?(?: pub)? ?" if folder == "specs" else r"fn "
    lines = path.read_text(encoding="utf-8").splitlines()
    return any(re.match(rf"\s*(?:pub(?:\(crate\))? )?{kinds}{word}\b", line) for line in lines)


def main():
    """Prints each name that isn't there, and how many are."""
    passed, failed = 0, 0
    table = (ROOT / "docs" / "RULE_TABLE.md").read_text(encoding="utf-8")
    for row in (line for line in table.splitlines() if line.startswith("| ") and "`" in line):
        placed = [(name, *place) for names, *place in PLACED.findall(row) for name in re.findall("`([^`]+)`", names)]
        for name, crate, folder, file in placed:
            if is_there(name, crate, folder or None, file):
                passed += 1
            else:
                failed += 1
                print(f"not there: `{name}`, {crate} {folder}/{file}" if folder else f"not there: `{name}`, {crate}")
    print(f"{passed} names found, {failed} not")
    return 1 if failed or not passed else 0


if __name__ == "__main__":
    sys.exit(main())
