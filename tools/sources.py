"""What the crates define and promise, read from their sources: the items of src/ with comment and contract, the definitions
of specs/, and what each name in them stands for. tools/pages.py prints it, tools/reading.py follows it.

The sources are as `rt fmt` lays them out: an item begins at the margin, a method four spaces behind it.
"""

import collections
import functools
import pathlib
import re
from typing import Iterable, Iterator, NamedTuple, Optional

TOP = pathlib.Path(__file__).resolve().parent.parent
VISIBLE = r"(?P<seen>pub(?:\([a-z]+\))? )?"
ITEM = re.compile(rf"^{VISIBLE}(?P<kind>(?:const )?fn|struct|enum|trait|const|static|type) (?P<name>\w+)")
METHOD = re.compile(rf"^    {VISIBLE}(?P<kind>(?:const )?fn) (?P<name>\w+)")
IMPL = re.compile(r"^impl(?:<.*?>)? (?:(?P<trait>[\w:]+)(?:<.*>)? for )?(?P<name>[\w:]+)")
DEFINED = re.compile(r"^(?:(?:abbrev|unfoldable|pub|record|data) )+(?!use |mod )(\S+)")
GHOST_USE = re.compile(r"^ *(?:pub )?(?:ghost )?use Rattle\.(\w+)\.specs\.([\w.]*\w)(?:\.\{([^}]*)\}| as (\w+));?$", re.MULTILINE)
CONSTRUCTOR = re.compile(r"^  (?:pub )?([\w'-]+) :", re.MULTILINE)
REEXPORT = re.compile(r"^pub use Rattle\.(\w+)\.specs\.([\w.]+)\.\{([^}]*)\}$", re.MULTILINE)
RUST_USE = re.compile(r"^(?:pub )?use ([a-z_]\w*)((?:::\w+)*)::(?:\{([^}]*)\}|(\w+(?: as \w+)?));", re.MULTILINE)
WORD = re.compile(r"[A-Za-z_][\w'-]*")


class Item(NamedTuple):
    """An item of src/: its crate, file and name (`Type::method` of a method), what it is, the comment above it, its text
    without the body, the line at which it begins, and whether other crates can name it."""

    crate: str
    file: str
    name: str
    kind: str
    comment: str
    text: str
    line: int
    is_public: bool

    def key(self) -> tuple:
        return self.crate, f"src/{self.file}", self.name


class Definition(NamedTuple):
    """A definition of specs/: its crate, file and name, the comment above it, its text, and the line at which it begins."""

    crate: str
    file: str
    name: str
    comment: str
    text: str
    line: int

    def key(self) -> tuple:
        return self.crate, f"specs/{self.file}", self.name


class File(NamedTuple):
    """A file of src/ or specs/: its crate and path, the comment at its head, its items, what each imported word stands for
    (the key of an item or definition), and the words that are imported from nowhere."""

    crate: str
    path: str
    head: str
    items: list
    imports: dict


# ---- crates


def crates_named() -> dict:
    """By crate of crates.txt, what its line names."""
    named = {}
    for line in (TOP / "crates.txt").read_text(encoding="utf-8").splitlines():
        head, colon, rest = line.partition(":")
        if colon and not line.startswith("#"):
            named[head.split()[0]] = rest.split()
    return named


def files_of(crate: str, kind: str) -> Iterator[pathlib.Path]:
    suffix = ".rt" if kind == "src" else ".antt"
    return iter(sorted((TOP / "crates" / crate / kind).glob(f"**/*{suffix}")))


def inside(crate: str, kind: str, path: pathlib.Path) -> str:
    """The path of a file below src/ or specs/, without its suffix."""
    return str(path.relative_to(TOP / "crates" / crate / kind).with_suffix(""))


# ---- src/


def comment_above(lines: list, at: int, mark: str) -> tuple:
    """The comment right above a line, attributes between them aside, and the line at which it begins."""
    begin = at
    while begin and lines[begin - 1].strip().startswith("#["):
        begin -= 1
    end = begin
    while begin and lines[begin - 1].strip().startswith(mark):
        begin -= 1
    return joined(line.strip()[len(mark) :] for line in lines[begin:end]), begin


def joined(lines: Iterable) -> str:
    """The lines of a comment as paragraphs, with an empty line between two."""
    text = " ".join(line.strip() or "\n\n" for line in lines)
    return re.sub(r" ?\n\n ?", "\n\n", text).strip()


def head_of(lines: list, mark: str) -> str:
    """The comment with which a file begins."""
    texts = []
    for line in lines:
        if not line.startswith(mark):
            break
        texts.append(line[len(mark) :])
    return joined(texts)


def function_text(lines: list, at: int) -> str:
    """A function without its body: up to the brace on a line of its own behind a contract, or the one that ends its head."""
    margin = len(lines[at]) - len(lines[at].lstrip())
    has_contract, taken = False, []
    for line in lines[at:]:
        plain = line.strip()
        if line in (" " * margin + "{", " " * margin + "{}"):
            break
        has_contract = has_contract or plain.startswith(("requires", "ensures"))
        if has_contract and (plain.endswith("};") or plain.endswith("} {}")):
            taken.append(line.removesuffix(" {}").removesuffix(";"))
            break
        if not has_contract and plain.endswith(("{", "{}", ";")):
            taken.append(re.sub(r" ?(\{\}?|;)$", "", line))
            break
        taken.append(line)
    return "\n".join(line[margin:] for line in taken)


def block_text(lines: list, at: int) -> str:
    """An item up to the line that closes it."""
    if lines[at].endswith((";", "}")):
        return lines[at]
    taken = [lines[at]]
    for line in lines[at + 1 :]:
        taken.append(line)
        if line and not line[0].isspace() and line[0] in "})]":
            break
    return "\n".join(taken)


def end_of_block(lines: list, at: int) -> int:
    return next((place for place in range(at, len(lines)) if lines[place].startswith("}")), len(lines))


def exported(crate: str) -> tuple:
    """The names that the root file of a crate hands out, and the files whose public items it does."""
    root = next((path for name in ("lib", "main") if (path := TOP / "crates" / crate / "src" / f"{name}.rt").is_file()), None)
    text = root.read_text(encoding="utf-8") if root else ""
    names = set()
    for found in re.finditer(r"^pub use [\w:]+?::(?:\{([^}]*)\}|(\w+));", text, re.MULTILINE):
        names |= {name.strip() for name in (found[1] or found[2]).split(",")}
    return names, {"lib", *re.findall(r"^pub mod (\w+);", text, re.MULTILINE)}


def items_in(crate: str, file: str, lines: list, handed: tuple) -> list:
    """The items of a file of src/."""
    names, open_files = handed
    items, at = [], 0
    while at < len(lines):
        if found := ITEM.match(lines[at]):
            comment, begin = comment_above(lines, at, "///")
            text = function_text(lines, at) if found["kind"].endswith("fn") else block_text(lines, at)
            is_public = found["seen"] == "pub " and (found["name"] in names or file in open_files)
            items.append(Item(crate, file, found["name"], found["kind"], comment, text, begin + 1, is_public))
            at += text.count("\n") + 1 if not found["kind"].endswith("fn") else 1
        elif found := IMPL.match(lines[at]):
            end = end_of_block(lines, at)
            items += impl_items(crate, file, lines, at, end, found, names if file not in open_files else {found["name"]})
            at = end + 1
        else:
            at += 1
    return items


def impl_items(crate: str, file: str, lines: list, at: int, end: int, found: "re.Match", names: set) -> list:
    """What an `impl` block tells: its methods, or, of a trait, the block without bodies."""
    of = found["name"].rpartition("::")[2]
    if found["trait"] == "Model":
        comment, begin = comment_above(lines, at, "///")
        kept = [line for line in lines[at + 1 : end] if "ghost use " not in line]
        text = re.sub(r"\n{2,}", "\n", "\n".join([lines[at], *kept, "}"]))
        return [Item(crate, file, f"{of} (model)", "model", comment, text, begin + 1, of in names)]
    if found["trait"]:
        return []
    items = []
    for place in range(at + 1, end):
        if method := METHOD.match(lines[place]):
            comment, begin = comment_above(lines, place, "///")
            is_public = method["seen"] == "pub " and of in names
            name = f"{of}::{method['name']}"
            items.append(Item(crate, file, name, "fn", comment, function_text(lines, place), begin + 1, is_public))
    return items


# ---- specs/


def definitions_in(crate: str, file: str, lines: list) -> list:
    """The definitions of a file of specs/, each up to the empty line behind it."""
    found, at = [], 0
    while at < len(lines):
        name = DEFINED.match(lines[at])
        if not name:
            at += 1
            continue
        end = next((place for place in range(at, len(lines)) if not lines[place].strip()), len(lines))
        comment, begin = comment_above(lines, at, "--")
        found.append(Definition(crate, file, name[1], comment, "\n".join(lines[at:end]).rstrip(), begin + 1))
        # Several may stand behind one another with no empty line between them.
        rest = (place for place in range(at + 1, end) if DEFINED.match(lines[place]) or lines[place].startswith("-- "))
        stop = next(rest, end)
        found[-1] = found[-1]._replace(text="\n".join(lines[at:stop]).rstrip())
        at = stop
    return found


# ---- what words stand for


def names_in(braced: str) -> list:
    """The names in the braces of an import, each with the word by which the file calls it."""
    pairs = []
    for part in braced.split(","):
        name, _, local = part.strip().partition(" as ")
        if name:
            pairs.append((name, local or name))
    return pairs


def target(crate: str, module: str, name: str) -> tuple:
    """The key of what a module of specs has under a name. What stands below `declared` is a type of src/."""
    parts = module.split(".")
    if parts[0] == "declared":
        plain = [part for part in parts[1:] if part[:1].isupper() and part not in ("TheVariants", "TheConstants")]
        return crate, "src", plain[-1] if plain else name
    return crate, f"specs/{'/'.join(parts)}", name


def imports_in(crate: str, text: str, known: dict) -> dict:
    """What each word that a file brings in stands for, where that is of this repository."""
    words = {}
    for of, module, braced, alias in GHOST_USE.findall(text):
        if of in known:
            pairs = names_in(braced) if braced else [(alias, alias)]
            words.update({local: target(of, module, name) for name, local in pairs})
    for first, path, braced, single in RUST_USE.findall(text):
        place = "src" + path.replace("::", "/") if first == "crate" else "src"
        if first == "crate" or first in known:
            of = crate if first == "crate" else first
            words.update({local: (of, place, name) for name, local in names_in(braced or single)})
    return words


class Sources:
    """All items and definitions, by key, and the files that they stand in."""

    def __init__(self):
        self.named = crates_named()
        self.files = {(crate, kind): list(self.read(crate, kind)) for crate in self.named for kind in ("src", "specs")}
        self.items = {item.key(): item for files in self.files.values() for file in files for item in file.items}
        built = self.constructors()
        self.passed_on = {**self.reexports(), **self.handed_out(), **self.handed_on(), **built}
        self.built_in = collections.defaultdict(dict)
        for (crate, path, name), key in built.items():
            self.built_in[crate, path][name] = key

    def read(self, crate: str, kind: str) -> Iterator[File]:
        handed = exported(crate) if kind == "src" else None
        for path in files_of(crate, kind):
            text, name = path.read_text(encoding="utf-8"), inside(crate, kind, path)
            if kind == "specs" and path.name == "Lib.antt":
                continue
            lines = text.splitlines()
            items = items_in(crate, name, lines, handed) if kind == "src" else definitions_in(crate, name, lines)
            yield File(crate, f"{kind}/{name}", head_of(lines, "//!" if kind == "src" else "--"), items, imports_in(crate, text, self.named))

    def reexports(self) -> dict:
        """What a file of specs/ passes on: by crate, file and name the key that the name stands for there."""
        passed = {}
        for crate in self.named:
            for path in files_of(crate, "specs"):
                place = f"specs/{inside(crate, 'specs', path)}"
                for of, module, braced in REEXPORT.findall(path.read_text(encoding="utf-8")):
                    passed.update({(crate, place, local): target(of, module, name) for name, local in names_in(braced)})
        return passed

    def handed_out(self) -> dict:
        """What the root file of a crate hands out, and, by name alone, what contracts name of its src/."""
        found = {}
        for key, item in self.items.items():
            if isinstance(item, Item) and (item.is_public or (item.crate, "src", item.name) not in found):
                found[item.crate, "src", item.name] = key
        return found

    def handed_on(self) -> dict:
        """What the root file of a crate hands out of another crate, or under another name."""
        found = {}
        for crate, files in ((crate, files) for (crate, kind), files in self.files.items() if kind == "src"):
            for file in files:
                if file.path in ("src/lib", "src/main", "src/live"):
                    there = {local: key for local, key in file.imports.items() if (crate, "src", local) not in self.items}
                    found.update({(crate, "src", local): key for local, key in there.items() if key != (crate, "src", local)})
        return found

    def constructors(self) -> dict:
        """The constructors of data, each of which leads to its definition."""
        found = {}
        for key, item in self.items.items():
            if isinstance(item, Definition) and re.match(r"(?:pub )?data ", item.text):
                found.update({(*key[:2], name): key for name in CONSTRUCTOR.findall(item.text)})
        return found

    def find(self, key: tuple) -> Optional[tuple]:
        """The key of what a key leads to, which a file may only pass on; nothing where it leads nowhere."""
        for _ in range(8):
            if key in self.items:
                return key
            # A constructor may be named by its type: `Deeds.CastDeed.{joins}`.
            folder, _, of = key[1].rpartition("/")
            key = self.passed_on.get(key) or (key[0], folder, of)
        return None

    def words_of(self, file: File) -> dict:
        """What each word of a file stands for: what it imports, and what it defines itself."""
        own = {item.name: item.key() for item in file.items if "::" not in item.name and " " not in item.name}
        return {**file.imports, **self.built_in[file.crate, file.path], **own}


@functools.lru_cache(maxsize=1)
def all_sources() -> Sources:
    return Sources()
