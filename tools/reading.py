#!/usr/bin/env python3
"""Prints what to read to believe the headline: the definitions on which `IsGood` (tipc_world specs/Good) rests, which the
clause `good` of `run` promises, in the order in which to read them, and how large each layer is.

reading.py            sizes by layer, and the files with the definitions in each
reading.py --whole    the definitions themselves, each behind those that it uses

docs/BELIEVE.md says what is trusted besides. tools/pages.py has the same as a linked page.
"""

import pathlib
import re
import sys

import sources
from sources import Definition, File, Item, Sources

TOP = pathlib.Path(__file__).resolve().parent.parent
# The headline.
ROOT = ("tipc_world", "specs/Good", "IsGood")
LAYER = re.compile(r"^\|([^|]*)\|([^|]*)\|[^|]*\|$", re.MULTILINE)
KINDS = {"src": ".rt", "specs": ".antt", "proofs": ".antt"}
TOLD_WORD = re.compile(r"(?<![\w.'-])[A-Za-z_][\w'-]*")


def layers() -> list:
    """The layers of docs/ARCHITECTURE.md with their crates, from below."""
    found, layer = {}, ""
    for first, crates in LAYER.findall((TOP / "docs" / "ARCHITECTURE.md").read_text(encoding="utf-8")):
        layer = first.strip() or layer
        if names := re.findall(r"tipc_\w+", crates):
            found.setdefault(layer, []).extend(names)
    return list(found.items())


def lines_of(crate: str, kind: str) -> int:
    return sum(path.read_bytes().count(b"\n") for path in (TOP / "crates" / crate / kind).glob(f"**/*{KINDS[kind]}"))


def sizes_text(known: Sources) -> str:
    """Lines of code, definitions and proofs, by layer."""
    rows, total = [f"{'layer':<10}{'crates':>8}{'code':>9}{'definitions':>13}{'proofs':>9}"], [0, 0, 0]
    for layer, crates in layers():
        sizes = [sum(lines_of(crate, kind) for crate in crates) for kind in KINDS]
        total = [one + other for one, other in zip(total, sizes)]
        rows.append(f"{layer:<10}{len(crates):>8}{sizes[0]:>9,}{sizes[1]:>13,}{sizes[2]:>9,}")
    rows.append(f"{'all':<10}{len(known.named):>8}{total[0]:>9,}{total[1]:>13,}{total[2]:>9,}")
    return "\n".join(rows)


def uses(known: Sources, item, words: dict) -> list:
    """What an item's text names, in order."""
    keys = [known.find(words[word]) for word in TOLD_WORD.findall(item.text) if word in words]
    return [key for key in dict.fromkeys(keys) if key and key != item.key()]


class Reader:
    """Follows names from a definition, each behind those that it uses."""

    def __init__(self, known: Sources):
        self.known = known
        files = [file for of in known.files.values() for file in of]
        self.file_of = {item.key(): file for file in files for item in file.items}
        self.words = {}
        self.order = []
        self.seen = set()

    def words_for(self, file: File) -> dict:
        place = (file.crate, file.path)
        if place not in self.words:
            self.words[place] = self.known.words_of(file)
        return self.words[place]

    def follow(self, root: tuple) -> list:
        """All that a definition rests on, in the order in which to read it."""
        waiting = [(root, False)]
        while waiting:
            key, is_done = waiting.pop()
            if is_done:
                self.order.append(key)
            elif key not in self.seen:
                self.seen.add(key)
                item = self.known.items[key]
                used = uses(self.known, item, self.words_for(self.file_of[key]))
                waiting.append((key, True))
                waiting += [(other, False) for other in reversed(self.with_models(used))]
        return self.order

    def with_models(self, keys: list) -> list:
        """Beside a struct of src/, how contracts see it."""
        models = [(key[0], key[1], f"{key[2]} (model)") for key in keys]
        return [*keys, *(key for key in models if key in self.known.items)]


def told_files(known: Sources) -> list:
    """The files of what is to be read, each with its definitions, in order: a file stands where its last definition does."""
    reader = Reader(known)
    order = [key for key in reader.follow(ROOT) if isinstance(known.items[key], Definition)]
    files, last = {}, {}
    for place, key in enumerate(order):
        file = reader.file_of[key]
        files.setdefault((file.crate, file.path), (file, []))[1].append(known.items[key])
        last[file.crate, file.path] = place
    return [files[place] for place in sorted(files, key=last.get)]


def main(words: list) -> int:
    if words not in ([], ["--whole"]):
        print(__doc__, file=sys.stderr)
        return 2
    known = sources.all_sources()
    told = told_files(known)
    print(f"{sizes_text(known)}\n")
    lines = sum(item.text.count("\n") + 1 for _, items in told for item in items)
    print(f"{sum(len(items) for _, items in told)} definitions in {len(told)} files, {lines:,} lines, on which `IsGood` rests:\n")
    for file, items in told:
        print(f"{file.crate} {file.path}: {', '.join(item.name for item in items)}")
        for item in items if words else []:
            print(f"\n-- {item.comment}\n{item.text}")
        if words:
            print()
    return 0


if __name__ == "__main__":
    sys.exit(main(sys.argv[1:]))
