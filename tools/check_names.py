#!/usr/bin/env python3
"""Looks that a word of the definitions has one meaning, an import stands once in its file, and each function has a caller.

check_names.py: prints each fault, and a line `N names, M imports and K functions looked at, F faults`.

    Names      A name that a file of specs/ defines stands in no other one, or tools/names.txt lists it with each of its
               places and what it means there. It is a fault, too, where a listed name stands in other places.
    Imports    A module whose names a file brings in by `use` or `ghost use`, at the begin of a line, stands in one such
               line, and each name once.
    Functions  A function of src/ is called in its crate or in one above: by `name(` where it stands alone, `::name` of a
               type, `.name(` of a value. A law, a test, `main` and what a trait of std asks for are called by nobody. Any
               other is in tools/uncalled.txt with the reason. Functions of one name and form aren't told apart.

check_names.py --draft: prints tools/names.txt as the comments above the definitions have it, to be read and taken over.
"""

import collections
import pathlib
import re
import sys
from typing import NamedTuple

TOP = pathlib.Path(__file__).resolve().parent.parent
NAMES, UNCALLED = TOP / "tools" / "names.txt", TOP / "tools" / "uncalled.txt"
DEFINED = re.compile(r"^(?:(?:abbrev|unfoldable|pub|record|data) )+(?!use |mod )(\S+)")
SPEC_IMPORT = re.compile(r"^(?:pub )?use ([\w.]+)\.\{([^}]*)\}$", re.MULTILINE)
CODE_IMPORT = re.compile(r"^(?:pub )?(ghost )?use ([^;]+);", re.MULTILINE)
MODULE_IMPORT = re.compile(r"^((?:pub )?(?:ghost )?use [\w.:]+?)(?:\.|::)\{", re.MULTILINE)
FUNCTION = re.compile(r"\bfn (\w+)")
BLOCK = re.compile(r"\b(?:requires|ensures)\b[^{;]*\{|#!?\[")
HEAD = re.compile(r"(?:^|\n)(?:pub )?(impl|trait)\b([^{]*)\{")
MEANING_LETTERS = 140
HEAD_OF_NAMES = (
    "# Names that stand more than once in specs/: under each its places (crate and file), and what it means there.\n"
    "# tools/check_names.py looks them up."
)
CLOSING = {"{": "}", "[": "]"}


class Place(NamedTuple):
    """Where a name is defined, and the comment above it."""

    crate: str
    file: str
    meaning: str

    def where(self) -> str:
        return f"{self.crate} {self.file}"


class Function(NamedTuple):
    """A function of src/: its crate and file, its name, how it is called, and why nobody needs to call it, if so."""

    crate: str
    file: str
    name: str
    form: str
    excuse: str


# ---- names of definitions


def comment_above(lines: list, at: int) -> str:
    """The comment right above a line, as one line."""
    begin = at
    while begin and lines[begin - 1].startswith("-- ") and not lines[begin - 1].startswith("-- ----"):
        begin -= 1
    return " ".join(line[3:] for line in lines[begin:at])


def defined() -> dict:
    """By name, where files of specs/ define it."""
    found = collections.defaultdict(list)
    for path in sorted(TOP.glob("crates/*/specs/**/*.antt")):
        if path.name == "Lib.antt":
            continue
        lines = path.read_text(encoding="utf-8").splitlines()
        crate, _, *rest = path.relative_to(TOP / "crates").with_suffix("").parts
        file = "/".join(rest)
        for at, line in enumerate(lines):
            name = DEFINED.match(line)
            if name:
                found[name[1]].append(Place(crate, file, comment_above(lines, at)))
    return found


def listed() -> dict:
    """By name, the places that tools/names.txt has for it."""
    found, name = {}, ""
    for line in NAMES.read_text(encoding="utf-8").splitlines():
        if line.startswith("  "):
            found[name].append(line.strip().partition(":")[0])
        elif line and not line.startswith("#"):
            name = line
            found[name] = []
    return found


def name_faults(found: dict) -> list:
    known, faults = listed(), []
    several = {name: sorted(place.where() for place in places) for name, places in found.items() if len(places) > 1}
    for name, places in sorted(several.items()):
        if name not in known:
            faults.append(f"{name} is defined more than once: {', '.join(places)}")
        elif sorted(known[name]) != places:
            faults.append(f"{name} stands in {', '.join(places)}; tools/names.txt has {', '.join(sorted(known[name]))}")
    faults += [f"{name} is in tools/names.txt, and isn't defined more than once" for name in sorted(known.keys() - several.keys())]
    return faults


def sentence(meaning: str) -> str:
    """The first sentence of a comment, shortened where it is long."""
    first = meaning.partition(". ")[0].rstrip(".")
    return first if len(first) <= MEANING_LETTERS else first[: MEANING_LETTERS - 2].rpartition(" ")[0] + " .."


def draft(found: dict) -> str:
    """The list as the comments have it."""
    lines = [HEAD_OF_NAMES]
    for name, places in sorted(found.items()):
        if len(places) > 1:
            lines.append(name)
            lines += [f"  {place.where()}: {sentence(place.meaning) or '(no comment stands above it)'}" for place in sorted(places)]
    return "\n".join(lines)


# ---- imports


def brought(path: str, names: str) -> list:
    """What an import brings in: each name with the path before it, as `as` calls it."""
    return [(path, name.strip()) for name in names.split(",") if name.strip()]


def imports_of(path: pathlib.Path, text: str) -> list:
    """All that the imports at the begin of a line bring in, one after the other."""
    if path.suffix == ".antt":
        return [item for found in SPEC_IMPORT.finditer(text) for item in brought(found[1], found[2])]
    items = []
    for found in CODE_IMPORT.finditer(text):
        words = re.sub(r"\s+", " ", found[2])
        before, brace, names = words.partition("{")
        items += brought((found[1] or "") + before, names.rstrip("} ") if brace else words)
    return items


def import_faults() -> tuple:
    """The faults, and how many imports there are."""
    faults, count = [], 0
    for path in sorted([*TOP.glob("crates/*/src/**/*.rt"), *TOP.glob("crates/*/specs/**/*.antt"), *TOP.glob("crates/*/proofs/**/*.antt")]):
        text = path.read_text(encoding="utf-8")
        times = collections.Counter(imports_of(path, text))
        modules = collections.Counter(MODULE_IMPORT.findall(text))
        count += sum(times.values())
        for (before, name), number in times.items():
            if number > 1:
                faults.append(f"{path.relative_to(TOP)} imports {name} of {before.rstrip('.: ')} {number} times")
        faults += [f"{path.relative_to(TOP)} has {number} lines `{line}`" for line, number in modules.items() if number > 1]
    return faults, count


# ---- functions


def without_blocks(text: str) -> str:
    """The code of a source alone: no comments, imports, attributes, nor clauses of contracts."""
    text = re.sub(r"(?m)^\s*//.*$", "", text)
    text = re.sub(r"(?m)^\s*(?:pub )?(?:ghost )?use [^;]+;", "", text)
    parts, at = [], 0
    for found in iter(lambda: BLOCK.search(text, at), None):
        parts.append(text[at : found.start()])
        at = end_of(text, found.end() - 1)
    return "".join([*parts, text[at:]])


def end_of(text: str, at: int) -> int:
    """The place behind the bracket that closes the one at a place."""
    opening, closing, depth = text[at], CLOSING[text[at]], 0
    for place in range(at, len(text)):
        depth += (text[place] == opening) - (text[place] == closing)
        if not depth:
            return place + 1
    return len(text)


def blocks_of(text: str) -> list:
    """Each `impl` and `trait` block of a source: its begin, its end, and its head."""
    return [(found.end(), end_of(text, found.end() - 1), f"{found[1]}{found[2]}".strip()) for found in HEAD.finditer(text)]


def form_of(text: str, at: int, is_inside: bool) -> str:
    """How the function whose name ends at a place is called."""
    if not is_inside:
        return "alone"
    arguments = text[at : text.find(")", at)]
    return "value" if re.search(r"\bself\b", arguments) else "type"


def excuse_of(path: pathlib.Path, name: str, head: str, body: str, traits: set) -> str:
    """Why a function needs no caller, where it needs none. A law is all contract, and does nothing."""
    if re.fullmatch(r"\{\s*\}", body):
        return "law"
    if path.name == "main.rt" and name == "main":
        return "main"
    trait = re.match(r"impl(?:<.*?>)?\s+([\w:]+)(?:<.*>)? for ", head)
    if trait and ("::" in trait[1] or trait[1] not in traits):
        return "trait of std"
    return ""


def functions_of(path: pathlib.Path, text: str, traits: set) -> list:
    """The functions of a source."""
    crate, blocks = path.relative_to(TOP / "crates").parts[0], blocks_of(text)
    whole, found = path.read_text(encoding="utf-8"), []
    tests = set(re.findall(r"#\[test\]\s*(?:#\[[^\n]*\]\s*)*(?:pub )?fn (\w+)", whole))
    for name in FUNCTION.finditer(text):
        heads = [head for begin, end, head in blocks if begin <= name.start() < end]
        opening = text.find("{", name.end())
        body = text[opening : end_of(text, opening)] if opening >= 0 else ""
        excuse = "test" if name[1] in tests else excuse_of(path, name[1], heads[-1] if heads else "", body, traits)
        found.append(Function(crate, path.stem, name[1], form_of(text, name.end(), bool(heads)), excuse))
    return found


def calls_of(text: str) -> dict:
    """The names that a source calls, by form."""
    name = r"(\w+)(?:::<[^()]*?>)?"
    calls = {
        "value": set(re.findall(rf"\.\s*{name}\(", text)),
        "type": set(re.findall(r"::(\w+)", text)),
        "alone": set(re.findall(rf"(?<![\w.])(?<!fn ){name}\(", text)) | set(re.findall(r"[(,=]\s*(\w+)\s*(?=[,)])", text)),
    }
    # A method may be named by its type, and a function stand behind a module.
    calls["value"] |= calls["type"]
    calls["alone"] |= calls["type"]
    return calls


def crates_above() -> dict:
    """By crate, itself and all that name it in crates.txt."""
    above = {}
    for line in (TOP / "crates.txt").read_text(encoding="utf-8").splitlines():
        head, colon, rest = line.partition(":")
        if colon and not line.startswith("#"):
            crate = head.split()[0]
            for other in [crate, *rest.split()]:
                above.setdefault(other, set()).add(crate)
    return above


def excused() -> dict:
    """The functions of tools/uncalled.txt, each with its reason."""
    found = {}
    for line in UNCALLED.read_text(encoding="utf-8").splitlines():
        if line and not line.startswith("#"):
            place, _, reason = line.partition(": ")
            found[place] = reason
    return found


def function_faults() -> tuple:
    """The faults, and how many functions there are."""
    texts = {path: without_blocks(path.read_text(encoding="utf-8")) for path in sorted(TOP.glob("crates/*/src/**/*.rt"))}
    traits = {name for text in texts.values() for name in re.findall(r"\btrait (\w+)", text)}
    calls = collections.defaultdict(lambda: collections.defaultdict(set))
    for path, text in texts.items():
        for form, names in calls_of(text).items():
            calls[path.relative_to(TOP / "crates").parts[0]][form] |= names
    functions = [function for path, text in texts.items() for function in functions_of(path, text, traits)]
    above, known, uncalled = crates_above(), excused(), set()
    for function in functions:
        called = any(function.name in calls[crate][function.form] for crate in above[function.crate])
        if not function.excuse and not called:
            uncalled.add(f"{function.crate} {function.file} {function.name}")
    faults = [f"{place} has no caller" for place in sorted(uncalled - known.keys())]
    faults += [f"{place} is in tools/uncalled.txt, and has a caller or isn't there" for place in sorted(known.keys() - uncalled)]
    faults += [f"{place} is in tools/uncalled.txt without a reason" for place, reason in sorted(known.items()) if not reason]
    return faults, len(functions)


def main(words: list) -> int:
    found = defined()
    if words == ["--draft"]:
        print(draft(found))
        return 0
    if words:
        print(__doc__, file=sys.stderr)
        return 1
    of_imports, imports = import_faults()
    of_functions, functions = function_faults()
    faults = [*name_faults(found), *of_imports, *of_functions]
    for fault in faults:
        print(fault)
    print(f"{len(found)} names, {imports} imports and {functions} functions looked at, {len(faults)} faults")
    return 1 if faults or not found or not functions else 0


if __name__ == "__main__":
    sys.exit(main(sys.argv[1:]))
