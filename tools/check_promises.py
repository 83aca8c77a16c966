#!/usr/bin/env python3
"""Looks up each name of docs/PROMISES.md and docs/WALK.md in the code, and those of docs/GLOSSARY.md that stand with their place.

check_promises.py: prints each name that isn't there, each crate that has no line where it should, and a line
`N names found, M not`.

A part of a page has a heading with its crates, or speaks of the world and the program. A row of a table that begins with
crates is a part of its own. A name in backticks is one of these, in a crate of its part or in one on which these stand:

    `name`                        a function, a clause of a contract, a definition of specs/, a field of a record or
                                  struct, a type or a variant, or a file
    `Type::name`                  both of them
    `name`, tipc_x, specs/File    a name of just that file; likewise src/file. Where no crate stands there it is a crate
                                  of the part
    `name`, clauses `a`, `b`      clauses of just that function

What isn't spelled as a name, a formula say, is passed over. An item of a list that begins with a name promises something
of it, and a part has one such item for each.

Each crate has a line in docs/ARCHITECTURE.md, and a row in docs/PROMISES.md or, where it holds tests, a line in
docs/GATE.md. (What each crate promises, clause by clause, is printed from its sources by tools/pages.py.)
"""

import collections
import pathlib
import re
import sys

TOP = pathlib.Path(__file__).resolve().parent.parent
PAGES = ("PROMISES.md", "WALK.md")
# Of this page only the names are looked up that stand with their place.
WORDS = "GLOSSARY.md"
HEADLINE_CRATES = ["tipc_sim", "tipc_world", "tipc_replay"]
# The end of a line that the next one goes on from.
GOES_ON = re.compile(r"\n *(?![ \n|#]|[-*] |\d+\. )")
ROW = re.compile(r"^\| ((?:tipc_\w+(?:, )?)+) \| (.*) \|$", re.MULTILINE)
QUOTED = re.compile(r"`([^`]+)`((?:, (?:part `\w+`))?)")
PLACED = re.compile(r"(?<!part )`([A-Za-z_]\w*)`[,;]? \(?(?:(tipc_\w+),? )?(specs|src)/(\w+)")
FILE = re.compile(r"(?:(tipc_\w+),? )?(specs|src)/(\w+)")
# Names of the standard library.
OF_STD = {"env::args", "AllocError"}
CALL = re.compile(r"`(?:\w+::)*(\w+)`(?:, `\w+`)*(?: \(src/\w+\))?, clauses? ((?:`\w+`(?:, | and )?)+)")
FUNCTION = re.compile(r"\bfn (\w+)(.*?)\n *\{", re.DOTALL)
TEXT = re.compile(r'"([a-z-]+)"')
NAME = re.compile(r"[A-Za-z_]\w*(?:::[A-Za-z_]\w*)*(?:\(\))?")
RUST = re.compile(r"\b(?:fn|struct|enum|trait|type|const|static|mod) (\w+)")
CLAUSE = re.compile(r"\b(?:ensures|requires)\*? (\w+)")
FIELD = re.compile(r"^ +(?:pub(?:\([a-z]+\))? )?(\w+)(?: :|:|,$|\(|\{| \{|$)", re.MULTILINE)
DEFINED = re.compile(r"^(?:(?:abbrev|unfoldable|pub|record|data) )+(\S+)", re.MULTILINE)
CONSTRUCTOR = re.compile(r"^  (?:pub )?([\w-]+) :", re.MULTILINE)


class Code:
    """The names of the crates, by crate and by file."""

    def __init__(self):
        self.by_file = {}
        self.by_crate = collections.defaultdict(set)
        self.clauses = collections.defaultdict(set)
        for path in sorted([*TOP.glob("crates/*/src/**/*.rt"), *TOP.glob("crates/*/specs/**/*.antt")]):
            crate, kind, *_ = path.relative_to(TOP / "crates").parts
            text = path.read_text(encoding="utf-8")
            names = {path.stem, *DEFINED.findall(text), *CONSTRUCTOR.findall(text), *FIELD.findall(text)}
            names |= {*RUST.findall(text), *CLAUSE.findall(text), *TEXT.findall(text)}
            self.by_file.setdefault((crate, kind, path.stem), set()).update(names)
            self.by_crate[crate] |= names
            for name, contract in FUNCTION.findall(text):
                self.clauses[crate, name] |= set(CLAUSE.findall(contract))
        self.below = self.read_crates()

    @staticmethod
    def read_crates() -> dict:
        """By crate, itself and all that it names in crates.txt."""
        below = {}
        for line in (TOP / "crates.txt").read_text(encoding="utf-8").splitlines():
            head, colon, rest = line.partition(":")
            if colon and not line.startswith("#"):
                below[head.split()[0]] = [head.split()[0], *rest.split()]
        return below

    def has(self, name: str, crates: list) -> bool:
        """Whether a name, or each part of a path, is one of these crates or of those that they stand on."""
        reached = {other for crate in crates for other in self.below[crate]}
        return all(any(part in self.by_crate[crate] for crate in reached) for part in name.split("::"))

    def has_in(self, name: str, crates: list, kind: str, file: str) -> bool:
        """Whether a name is one of that file in one of the crates."""
        return any(name in self.by_file.get((crate, kind, file), ()) for crate in crates)


def read_page(name: str) -> str:
    """A page, in which each paragraph and each item of a list is one line."""
    return GOES_ON.sub(" ", (TOP / "docs" / name).read_text(encoding="utf-8"))


def parts_of(page: str, known: dict) -> list:
    """The parts of the page: the heading, the crates of which it speaks, and the text."""
    parts = []
    for part in re.split(r"(?m)^## ", page)[1:]:
        heading, _, text = part.partition("\n")
        crates = [crate for crate in re.findall(r"tipc_\w+", heading) if crate in known]
        parts.append((heading, crates or HEADLINE_CRATES, ROW.sub("", text)))
        parts += [(f"{heading}, {row[1]}", row[1].split(", "), row[2]) for row in ROW.finditer(text)]
    return parts


def misplaced(code: Code, crates: list, text: str) -> list:
    """The names that aren't in the file that stands behind them."""
    wrong = []
    for name, crate, kind, file in PLACED.findall(text):
        places = [crate] if crate else crates
        if not code.has_in(name, places, kind, file):
            wrong.append(f"`{name}`, {' '.join(places)} {kind}/{file}")
    for crate, kind, file in FILE.findall(text):
        places = [crate] if crate else crates
        if not any((place, kind, file) in code.by_file for place in places):
            wrong.append(f"{' '.join(places)} {kind}/{file}")
    return wrong


def unclaused(code: Code, crates: list, text: str) -> list:
    """The clauses that a call is said to have, and hasn't."""
    wrong = []
    for call, clauses in CALL.findall(text):
        there = {clause for crate in crates for clause in code.clauses[crate, call]}
        wrong += [f"clause `{clause}` of `{call}`" for clause in re.findall(r"`(\w+)`", clauses) if clause not in there]
    return wrong


def missing(code: Code, crates: list, text: str) -> tuple:
    """The names that aren't there, and how many are."""
    wrong, found = [], 0
    # A name of a crate above says so by its place, where it is looked up.
    above = {name for name, crate, *_ in PLACED.findall(text) if crate}
    for name, _ in QUOTED.findall(text):
        plain = name.removesuffix("()")
        if not NAME.fullmatch(name) or len(name) == 1 or plain in code.below or plain in OF_STD:
            continue
        if name in above or code.has(plain.removeprefix("tipc_script::").removeprefix("tipc_report::").removeprefix("laws::"), crates):
            found += 1
        else:
            wrong.append(f"`{name}`")
    return wrong, found


def subjects(text: str) -> list:
    """The names with which an item of a list begins."""
    return [name for item in re.findall(r"(?m)^- ((?:`[^`]+`(?:, | and )?)+):", text) for name in re.findall(r"`([^`]+)`", item)]


def look_up(code: Code, page: str) -> tuple:
    """How many names of a page are there, and what isn't."""
    found, wrong = 0, []
    for heading, crates, text in parts_of(read_page(page), code.below):
        lost, there = missing(code, crates, text)
        found += there
        lost += [*misplaced(code, crates, text), *unclaused(code, crates, text)]
        wrong += [f"{page}, {heading}: {name} isn't there" for name in lost]
        twice = [name for name, number in collections.Counter(subjects(text)).items() if number > 1]
        wrong += [f"{page}, {heading}: `{name}` has more than one item" for name in twice]
    return found, wrong


def unlisted(code: Code) -> list:
    """The crates that have no line on a page where they should."""
    pages = {page: (TOP / "docs" / page).read_text(encoding="utf-8") for page in ("ARCHITECTURE.md", "PROMISES.md", "GATE.md")}
    pages["PROMISES.md"] = " ".join(row[1] for row in ROW.finditer(pages["PROMISES.md"]))
    places = [(page, crate) for crate in code.below for page in ("ARCHITECTURE.md", "GATE.md" if crate.endswith("_tests") else "PROMISES.md")]
    return [f"{page}: {crate} has no line" for page, crate in places if not re.search(rf"\b{crate}\b", pages[page])]


def main() -> int:
    code = Code()
    looked = [look_up(code, page) for page in PAGES]
    words = read_page(WORDS)
    looked.append((len(PLACED.findall(words)), [f"{WORDS}: {name} isn't there" for name in misplaced(code, HEADLINE_CRATES, words)]))
    wrong = [line for _, lines in looked for line in lines] + unlisted(code)
    found = sum(number for number, _ in looked)
    for line in wrong:
        print(line)
    print(f"{found} names found, {len(wrong)} not")
    return 1 if wrong or not found else 0


if __name__ == "__main__":
    sys.exit(main())
