#!/usr/bin/env python3
"""Prints the depth of each crate of crates.txt: one more than the deepest crate of the repository that it stands on.

Libraries of the kit don't count. It fails where a crate is deeper than eight, and where a chain of crates goes in a circle.
"""

import pathlib
import sys

ROOT = pathlib.Path(__file__).resolve().parent.parent
DEEPEST = 8


def lines_of(text):
    """The crates of crates.txt, each with the libraries that its line names."""
    named = {}
    for line in text.splitlines():
        head, colon, libraries = line.partition(":")
        if colon and not line.startswith("#"):
            named[head.split()[0]] = libraries.split()
    return named


def depth_of(crate, named, path=()):
    """How many crates of the repository the longest chain below and with this one has."""
    if crate in path:
        sys.exit(f"a chain of crates goes in a circle: {' '.join(path[path.index(crate):])} {crate}")
    below = [library for library in named[crate] if library in named]
    return 1 + max((depth_of(library, named, path + (crate,)) for library in below), default=0)


def main():
    """Prints the crates by depth, and ends with 1 where one is too deep."""
    named = lines_of((ROOT / "crates.txt").read_text(encoding="utf-8"))
    depths = {crate: depth_of(crate, named) for crate in named}
    for depth in range(1, max(depths.values()) + 1):
        print(f"{depth}: {' '.join(sorted(crate for crate in depths if depths[crate] == depth))}")
    deep = [crate for crate, depth in depths.items() if depth > DEEPEST]
    for crate in deep:
        print(f"too deep: {crate} at {depths[crate]}; the longest chain may have {DEEPEST} crates")
    print(f"{len(depths) - len(deep)} crates at a depth of at most {DEEPEST}, {len(deep)} deeper")
    return 1 if deep or not depths else 0


if __name__ == "__main__":
    sys.exit(main())
