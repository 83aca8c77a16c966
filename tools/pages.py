#!/usr/bin/env python3
"""Prints what each crate promises from its sources: item by item with comment and contract, and the definitions that these
use, each word linked to what it stands for.

pages.py FOLDER          writes HTML pages there: index.html, a page for each crate, and reading.html (tools/reading.py)
pages.py --text WORD     prints what has that name, and what a crate of that name promises to others
pages.py --look          makes all pages and keeps none; it fails where a public item has no comment, where a contract or a
                         definition names what isn't there, or where a link leads nowhere. The gate asks for this.

Nobody writes these pages and nothing of them is kept, so they can't differ from the sources. docs/PROMISES.md says in
words what the crates promise together.
"""

import pathlib
import re
import sys
import textwrap
from html import escape, unescape

import reading
import sources
from sources import Definition, Item, Sources

TOP = pathlib.Path(__file__).resolve().parent.parent
LAYER = re.compile(r"^\|([^|]*)\|([^|]*)\|([^|]*)\|$", re.MULTILINE)
TOLD_WORD = re.compile(r"(?<![\w.'&-])[A-Za-z_][\w'-]*")
LINK = re.compile(r'href="([^"#]*)#?([^"]*)"')
ANCHOR = re.compile(r'id="([^"]*)"')
STYLE = """body{font:15px/1.45 sans-serif;max-width:70em;margin:1.5em auto;padding:0 1em;color:#1f2328}
pre{background:#f6f8fa;padding:.6em .8em;overflow-x:auto;font:13px/1.4 monospace}a{color:#0969da;text-decoration:none}
a:hover{text-decoration:underline}pre a{color:#0550ae}h3{margin:1.4em 0 .2em;font-size:1em}p{margin:.3em 0}
.place{color:#6e7781;font-size:.85em}table{border-collapse:collapse}td{padding:.2em .8em .2em 0;vertical-align:top}"""


KEY = """<h2>How to read a contract</h2>
<table>
<tr><td><code>requires { .. }</code></td><td>what a caller has to show; without it the call can be made at any time</td></tr>
<tr><td><code>ensures name { .. }</code></td><td>a clause: what is so when the call has returned</td></tr>
<tr><td><code>x.old, x.new, x.now</code></td><td>before the call, behind it, and of what the call can't change</td></tr>
<tr><td><code>≡ ≢ × ⊎ → ↔</code></td><td>is, isn't, and, or, if .. then, exactly where</td></tr>
<tr><td><code>(x : ℕ) → P, (x : ℕ) × P</code></td><td>P for each number x; there is a number x with P</td></tr>
<tr><td><code>λ x. P</code></td><td>P as a function of x</td></tr>
<tr><td><code>OnOk result P, OnErr result P</code></td><td>P where the result is Ok, or is Err</td></tr>
<tr><td><code>IfOk result (λ x. P), IfSome ..</code></td><td>P of the x inside, where the result is Ok(x), or Some(x)</td></tr>
<tr><td><code>[], x ∷ xs, xs ++ ys</code></td><td>the empty list, x before xs, ys behind xs</td></tr>
<tr><td><code>(model)</code></td><td>how contracts see a struct whose fields are private (view), and what is always so of it (invariant)</td></tr>
</table>"""


def anchor_of(key: tuple) -> str:
    return f"{key[1]}/{key[2]}".replace(" ", "-")


def is_inside(item: Item) -> bool:
    """Whether a page shows an item that no other crate can name: what has a contract, and what is no function."""
    return not item.is_public and ("ensures" in item.text or not item.kind.endswith("fn"))


def is_shown(item) -> bool:
    return isinstance(item, Definition) or item.is_public or is_inside(item)


def said(text: str) -> str:
    """A comment, with what stands in backticks as code."""
    return re.sub(r"`([^`]+)`", r"<code>\1</code>", escape(text, quote=False)).replace("\n\n", "</p>\n<p>")


class Pages:
    """The pages of all crates, by file name."""

    def __init__(self, known: Sources):
        self.known = known
        self.layers = self.read_layers()
        self.faults = []

    def read_layers(self) -> dict:
        """By crate, its layer and what it holds, as docs/ARCHITECTURE.md has them."""
        layers, layer = {}, ""
        for first, crates, text in LAYER.findall((TOP / "docs" / "ARCHITECTURE.md").read_text(encoding="utf-8")):
            layer = first.strip() or layer
            layers.update({crate: (layer, text.strip()) for crate in re.findall(r"tipc_\w+", crates)})
        return layers

    # ---- one crate

    def linked(self, text: str, words: dict, own: tuple) -> str:
        """A contract or definition, in which each word that stands for something of this repository leads there."""

        def link(found: "re.Match") -> str:
            word = found[0]
            key = self.known.find(words[word]) if word in words else None
            if not key or key == own or not is_shown(self.known.items[key]):
                return word
            return f'<a href="{key[0]}.html#{escape(anchor_of(key))}">{word}</a>'

        return TOLD_WORD.sub(link, escape(text, quote=False))

    def entry(self, item, words: dict) -> str:
        """An item or a definition."""
        is_item = isinstance(item, Item)
        place = f"crates/{item.crate}/{'src' if is_item else 'specs'}/{item.file}.{'rt' if is_item else 'antt'}:{item.line}"
        return (
            f'<h3 id="{escape(anchor_of(item.key()))}">{escape(item.name)} <span class="place">{place}</span></h3>\n'
            f"<p>{said(item.comment)}</p>\n<pre>{self.linked(item.text, words, item.key())}</pre>"
        )

    def crate_page(self, crate: str) -> str:
        files = {kind: self.known.files[crate, kind] for kind in ("src", "specs")}
        parts = [self.head(crate), f"<h2>What it promises</h2>{self.section(files['src'], lambda item: item.is_public)}"]
        inner = self.section(files["src"], is_inside)
        parts.append(f"<h2>Definitions</h2>{self.section(files['specs'], lambda item: True)}")
        parts.append(f"<h2>Inside</h2><p>What no other crate can name.</p>{inner}" if inner else "")
        return page(crate, "\n".join(parts))

    def head(self, crate: str) -> str:
        below = [other for other in self.known.named[crate] if other in self.known.named]
        above = [other for other, rest in self.known.named.items() if crate in rest]
        root = next((file.head for file in self.known.files[crate, "src"] if file.path in ("src/lib", "src/main")), "")
        lines = [f"<h1>{crate}</h1><p>{said(root)}</p>"]
        for text, others in (("It stands on", below), ("On it stand", above)):
            links = ", ".join(f'<a href="{other}.html">{other}</a>' for other in others)
            lines.append(f"<p>{text}: {links or 'none'}.</p>")
        return "\n".join(lines)

    def section(self, files: list, is_meant) -> str:
        parts = []
        for file in files:
            shown = [item for item in file.items if is_meant(item)]
            if shown:
                words = self.known.words_of(file)
                parts += [f"<p><b>{file.path}</b>: {said(file.head)}</p>", *(self.entry(item, words) for item in shown)]
        return "\n".join(parts)

    # ---- all of them

    def index(self) -> str:
        rows = []
        for crate in self.known.named:
            items = [item for file in self.known.files[crate, "src"] for item in file.items if item.is_public]
            definitions = sum(len(file.items) for file in self.known.files[crate, "specs"])
            layer, text = self.layers.get(crate, ("", ""))
            cells = [layer, f'<a href="{crate}.html">{crate}</a>', said(text), f"{len(items)} items", f"{definitions} definitions"]
            rows.append("<tr>" + "".join(f"<td>{cell}</td>" for cell in cells) + "</tr>")
        words = "<p>The order is that of crates.txt, lowest first. What to read to believe the headline: "
        words += '<a href="reading.html">the definitions on which it rests</a>, in the order in which to read them.</p>'
        return page("Godlavez: what each crate promises", f"<h1>What each crate promises</h1>{words}<table>{''.join(rows)}</table>{KEY}")

    def reading_page(self) -> str:
        """The definitions on which the headline rests, file by file."""
        parts = ["<h1>What to read to believe the headline</h1>", f"<pre>{escape(reading.sizes_text(self.known))}</pre>"]
        told = reading.told_files(self.known)
        parts.append(f"<p>{sum(len(items) for _, items in told)} definitions in {len(told)} files, each behind those that it uses.</p>")
        for file, items in told:
            words = self.known.words_of(file)
            parts.append(f"<h2>{file.crate} {file.path}</h2><p>{said(file.head)}</p>")
            parts += [self.entry(item, words) for item in items]
        return page("What to read to believe it", "\n".join(parts))

    def all(self) -> dict:
        pages = {f"{crate}.html": self.crate_page(crate) for crate in self.known.named}
        return {"index.html": self.index(), "reading.html": self.reading_page(), **pages}

    # ---- what must be so

    def missing(self) -> list:
        """What has no comment, and what is named and isn't there."""
        faults = []
        for files in self.known.files.values():
            for file in files:
                for item in file.items:
                    if isinstance(item, Item) and item.is_public and item.kind != "model" and not item.comment:
                        faults.append(f"{file.crate} {file.path}: {item.name} has no comment")
                for word, key in file.imports.items():
                    if key[1].startswith("specs/") and not self.known.find(key):
                        faults.append(f"{file.crate} {file.path}: {word} isn't in {key[0]} {key[1]}")
        return faults

    @staticmethod
    def lost_links(pages: dict) -> list:
        """Links that lead nowhere."""
        anchors = {name: set(map(unescape, ANCHOR.findall(text))) for name, text in pages.items()}
        faults = set()
        for name, text in pages.items():
            for file, anchor in LINK.findall(text):
                if file not in pages or anchor and unescape(anchor) not in anchors[file]:
                    faults.add(f"{name}: a link to {file}#{anchor} leads nowhere")
        return sorted(faults)


def page(title: str, body: str) -> str:
    return (
        f'<!doctype html>\n<html lang="en">\n<meta charset="utf-8">\n<title>{escape(title)}</title>\n<style>{STYLE}</style>\n'
        f'<p><a href="index.html">all crates</a></p>\n{body}\n</html>\n'
    )


def print_text(known: Sources, word: str) -> int:
    """What has a name, or what a crate promises, as text."""
    found = [item for item in known.items.values() if word in (item.name, item.name.rpartition("::")[2])]
    if word in known.named:
        found = [item for file in known.files[word, "src"] for item in file.items if item.is_public]
    for item in found:
        mark, kind = ("///", "src") if isinstance(item, Item) else ("--", "specs")
        parts = item.comment.split("\n\n")
        paragraphs = [textwrap.fill(part, 110, initial_indent=f"{mark} ", subsequent_indent=f"{mark} ") for part in parts]
        print(f"{item.crate} {kind}/{item.file}, line {item.line}", *paragraphs, item.text, sep="\n", end="\n\n")
    return 0 if found else 1


def main(words: list) -> int:
    if len(words) not in (1, 2) or words[0].startswith("-") and words[0] not in ("--text", "--look"):
        print(__doc__, file=sys.stderr)
        return 2
    known = sources.all_sources()
    if words[0] == "--text":
        return print_text(known, words[1]) if words[1:] else 2
    made = Pages(known)
    pages = made.all()
    if words[0] == "--look":
        faults = [*made.missing(), *made.lost_links(pages)]
        for fault in faults:
            print(fault)
        print(f"{len(pages)} pages of {sum(map(len, pages.values())) >> 10} KiB can be made, {len(faults)} faults")
        return 1 if faults else 0
    folder = pathlib.Path(words[0])
    folder.mkdir(parents=True, exist_ok=True)
    for name, text in pages.items():
        (folder / name).write_text(text, encoding="utf-8")
    print(f"{len(pages)} pages are in {folder}; begin with {folder / 'index.html'}")
    return 0


if __name__ == "__main__":
    sys.exit(main(sys.argv[1:]))
