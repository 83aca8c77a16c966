#!/usr/bin/env python3
"""Prints a row for each wrong body of the code: where it stands, which function it is of, and which rule that leads to.

wrong_bodies.py [WORD..]: a table of all edits (crates/NAME/must-fail and wrong-bodies), or of those whose row has one of
these words.
wrong_bodies.py --look: prints only those that lead nowhere, and how many do. It fails where an edit's text stands in no
function or item, or where neither a row of docs/RULE_TABLE.md nor a promise leads on from it.

A rule is that of a row of docs/RULE_TABLE.md that names the edit itself, or the edit's function, or another function of
its file. Where there is none, the promise stands there: the clauses of the edit's function (tools/pages.py --text prints
them), or, where it has none, the row of its crate in docs/PROMISES.md, "At a glance".
"""

import pathlib
import re
import sys
from typing import NamedTuple

import sources

TOP = pathlib.Path(__file__).resolve().parent.parent
FOLDERS = ("must-fail", "wrong-bodies")
PLACED = re.compile(r"`([^`]+)`, (tipc_\w+)(?: (?:specs|src)/([\w/]+))?")
ITEM = re.compile(r"^\s*(?:pub(?:\(crate\))? )?(fn|const|struct|enum|impl(?:<[^>]*>)?) (\w+)")


class Edit(NamedTuple):
    """A wrong body: its crate, its name, whether the gate tries it, the file that it changes, and the function or item in it."""

    crate: str
    name: str
    is_tried: bool
    file: str
    function: str


def item_with(text: str, part: str) -> str:
    """The function, or else the item, in which a part of a source stands; nothing where it stands in none."""
    lines = text[: text.find(part) + len(part)].splitlines() if part in text else []
    for line in reversed(lines):
        item = ITEM.match(line)
        if item:
            return item[2] if item[1] == "fn" else f"{item[1].partition('<')[0]} {item[2]}"
    return ""


def edits() -> list:
    """All edits, crate by crate."""
    found = []
    for folder in FOLDERS:
        for path in TOP.glob(f"crates/*/{folder}/*.edit"):
            lines = path.read_text(encoding="utf-8").splitlines()
            file = next((line[6:] for line in lines if line.startswith("file: ")), "")
            part = next((line[5:] for line in lines if line.startswith("old: ")), "")
            source = path.parent.parent / file
            text = source.read_text(encoding="utf-8") if source.is_file() else ""
            found.append(Edit(path.parent.parent.name, path.stem, folder == "must-fail", file, item_with(text, part)))
    return sorted(found)


def rules() -> tuple:
    """The rules by what leads to them: the crate and name of an edit; the crate, file and name of a function; the crate and file."""
    by_edit, by_function, by_file = {}, {}, {}
    for row in (TOP / "docs" / "RULE_TABLE.md").read_text(encoding="utf-8").splitlines():
        cells = [cell.strip() for cell in row.strip("|").split("|")]
        if not row.startswith("| ") or len(cells) != 5:
            continue
        for name, crate, file in PLACED.findall("; ".join(cells[2:])):
            if file:
                by_function.setdefault((crate, f"src/{file}.rt", name), []).append(cells[0])
                by_file.setdefault((crate, f"src/{file}.rt"), []).append(cells[0])
            else:
                by_edit.setdefault((crate, name), []).append(cells[0])
    return by_edit, by_function, by_file


def promised() -> set:
    """The crates that have a row in docs/PROMISES.md."""
    rows = re.findall(r"(?m)^\| ((?:tipc_\w+(?:, )?)+) \| ", (TOP / "docs" / "PROMISES.md").read_text(encoding="utf-8"))
    return {crate for row in rows for crate in row.split(", ")}


def clauses_of(edit: Edit) -> str:
    """The clauses of an edit's function; of several of its name in the file, of all."""
    known = sources.all_sources()
    files = [file for file in known.files[edit.crate, "src"] if f"{file.path}.rt" == edit.file]
    texts = [item.text for file in files for item in file.items if item.name.rpartition("::")[2] == edit.function]
    names = [name or "the one clause" for text in texts for name in re.findall(r"(?m)^ +ensures ?(\w*) \{", text)]
    return ", ".join(dict.fromkeys(names))


def leads_to(edit: Edit, known: tuple, crates: set) -> str:
    """The rules, or the promise, that an edit leads to; nothing where it leads nowhere."""
    by_edit, by_function, by_file = known
    rules_of = (
        by_edit.get((edit.crate, edit.name))
        or by_function.get((edit.crate, edit.file, edit.function))
        or by_file.get((edit.crate, edit.file))
    )
    if rules_of:
        return "; ".join(dict.fromkeys(rules_of))
    if clauses := clauses_of(edit):
        return f"`{edit.function}`: {clauses}"
    return f"docs/PROMISES.md, {edit.crate}" if edit.crate in crates else ""


def main(words: list) -> int:
    known, crates, found = rules(), promised(), edits()
    if words == ["--look"]:
        lost = [edit for edit in found if not edit.function or not leads_to(edit, known, crates)]
        for edit in lost:
            print(f"leads nowhere: {edit.crate} {edit.name}, of {edit.function or 'no function'} in {edit.file}")
        print(f"{len(found) - len(lost)} wrong bodies lead to a rule or a promise, {len(lost)} don't")
        return 1 if lost or not found else 0
    print("| Wrong body | Of | Tried by the gate | Leads to |\n|---|---|---|---|")
    for edit in found:
        of, tried = f"`{edit.function}`, {edit.file.removesuffix('.rt')}", "yes" if edit.is_tried else ""
        row = f"| `{edit.name}`, {edit.crate} | {of} | {tried} | {leads_to(edit, known, crates)} |"
        if not words or any(word in row for word in words):
            print(row)
    return 0


if __name__ == "__main__":
    sys.exit(main(sys.argv[1:]))
