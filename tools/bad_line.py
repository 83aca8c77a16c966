#!/usr/bin/env python3
"""Says what is wrong with the first bad line of a script: where, what was wanted there, and what may have been meant.

bad_line.py SCRIPT: prints that, and ends with 1; where no line is bad it prints nothing, and ends with 0. ./tipc_sim
says the same on standard error where a run ends with status 2.

What a line has to be stands in two tables of docs/FORMATS.md (kinds of tokens, and lines with their kinds), and is read
from there. The fault, its place and its reason are those of the report: `bad PLACE REASON`.
"""

import difflib
import pathlib
import re
import sys
from typing import Callable, NamedTuple, Optional

TOP = pathlib.Path(__file__).resolve().parent.parent
FORMATS, LINUX = TOP / "docs" / "FORMATS.md", TOP / "docs" / "LINUX.md"
KIND_ROW = re.compile(r"^\| (\w+) \| (.+) \| `(\w+)` \|$", re.MULTILINE)
LINE_TABLE = re.compile(r"^\| line \| kinds \| .*\n\|[-|]+\n((?:\|.*\n)+)", re.MULTILINE)
FROM_TO = re.compile(r"^a number from ([\d,]+) to ([\d,]+)")
OR_NUMBERS = re.compile(r"^the number ([\d,]+) or ([\d,]+)")
BODY = re.compile(r"`=` and ([\d,]+) to ([\d,]+) bytes from (\d+) to (\d+), or `\*` and a number up to ([\d,]+)")
QUOTED = re.compile(r"`([^`]+)`")
PLAIN_NUMBER = re.compile(rb"0|[1-9][0-9]{0,18}")
# What an editor may have put before the text of a script.
MARKS = {b"\xef\xbb\xbf": "UTF-8", b"\xff\xfe": "UTF-16", b"\xfe\xff": "UTF-16"}
LETTERS_SHOWN, CARETS_SHOWN = 100, 40


class BadPage(Exception):
    """docs/FORMATS.md has no such tables."""


class Kind(NamedTuple):
    """What a token may have to be: its name, what it takes, in words, the reason of one that isn't so, and the test."""

    name: str
    takes: str
    reason: str
    is_taken: Callable


class Form(NamedTuple):
    """A line: how it is spelled, and of which kinds the tokens behind its first word are. `asked` has, for each of these,
    "there" or "new" where it names a node of which that is asked, else nothing."""

    spelling: str
    kinds: list
    asked: list


class Fault(NamedTuple):
    """The first bad line: its number, its bytes, the place and the reason as the report has them; the token there, the kind
    that was wanted, and the form of the line, where there are any; and, of a node that is there, the line that made it."""

    number: int
    text: bytes
    place: int
    reason: str
    token: bytes
    kind: Optional[Kind]
    form: Optional[Form]
    made: int


def numeral(text: str) -> int:
    return int(text.replace(",", ""))


def number_of(token: bytes) -> Optional[int]:
    """The number that a token spells in decimal digits without sign or leading zero."""
    return int(token) if PLAIN_NUMBER.fullmatch(token) else None


def number_test(low: int, high: int) -> Callable:
    return lambda token: (number := number_of(token)) is not None and low <= number <= high


def body_test(takes: "re.Match") -> Callable:
    least, most, first, last, count = (numeral(part) for part in takes.groups())

    def is_body(token: bytes) -> bool:
        rest = token[1:]
        if token[:1] == b"*":
            return number_test(0, count)(rest)
        return token[:1] == b"=" and least <= len(rest) <= most and all(first <= byte <= last for byte in rest)

    return is_body


def test_of(takes: str) -> Callable:
    """The test that a row of the table of kinds asks for."""
    if found := FROM_TO.match(takes):
        return number_test(numeral(found[1]), numeral(found[2]))
    if found := OR_NUMBERS.match(takes):
        return number_test(numeral(found[1]), numeral(found[2]))
    if found := BODY.match(takes):
        return body_test(found)
    words = {word.encode() for word in QUOTED.findall(takes)}
    return lambda token: token in words


def kinds_of(page: str) -> dict:
    return {name: Kind(name, takes, reason, test_of(takes)) for name, takes, reason in KIND_ROW.findall(page)}


def form_of_row(spelling: str, kinds: list, nodes: str) -> Form:
    """A line of the table; its last cell names the nodes by their letters in the spelling."""
    letters = spelling.split(" ")[1:]
    named = set(re.findall(r"\b\w\b", nodes.partition("(")[0]))
    asked = "new" if "mustn't be there" in nodes else "there"
    places = [asked if kind.name == "node" and letter in named else "" for letter, kind in zip(letters, kinds)]
    return Form(spelling, kinds, places)


class Grammar:
    """The lines that there are: by first word the forms that a line may have."""

    def __init__(self, page: str):
        self.kinds = kinds_of(page)
        table = LINE_TABLE.search(page)
        if not table or not self.kinds:
            raise BadPage("docs/FORMATS.md has no table of kinds, or none of lines")
        self.forms = {}
        for row in table[1].splitlines():
            spellings, names, nodes = (cell.strip() for cell in row.strip("|").split("|"))
            for spelling in QUOTED.findall(spellings):
                self.forms.setdefault(spelling.split(" ")[0], []).append(self.form(spelling, names, nodes))

    def form(self, spelling: str, names: str, nodes: str) -> Form:
        kinds = [name.strip() for name in names.split(",") if name.strip()]
        return form_of_row(spelling, [self.kinds[name] for name in kinds if name in self.kinds], nodes)

    def form_for(self, tokens: list) -> Optional[Form]:
        """The form that a line with these tokens has to have; none where no line begins with its first word."""
        forms = self.forms.get(tokens[0].decode("latin-1"), [])
        if tokens[0] == b"repeat":
            return self.repeated(forms[0], tokens)
        if len(forms) < 2:
            return forms[0] if forms else None
        # Where the form's own word is none, that is the fault, and what follows it isn't looked at.
        at = [kind.name for kind in forms[0].kinds].index("form")
        word = tokens[at + 1].decode("latin-1") if len(tokens) > at + 1 else ""
        return next((form for form in forms if form.spelling.split(" ")[at + 1] == word), forms[0])

    def repeated(self, form: Form, tokens: list) -> Form:
        """The line that is repeated, with the count and the word `send` before it."""
        sent = self.form_for([b"send", *tokens[3:]])
        return Form(f"{form.spelling.removesuffix(' send ..')} {sent.spelling}", form.kinds + sent.kinds, ["", ""] + sent.asked)


def fault_of_line(grammar: Grammar, number: int, text: bytes, made: dict) -> Optional[Fault]:
    """What is wrong with a line, behind lines that made these nodes; nothing where it is good."""
    if not text or text.startswith(b"#"):
        return None
    tokens = text.split(b" ")
    form = grammar.form_for(tokens)
    if not form:
        return Fault(number, text, 1, "command", tokens[0], None, None, 0)
    places = [1]
    for token in tokens:
        places.append(places[-1] + len(token) + 1)
    for at, kind in enumerate(form.kinds, 1):
        if at == len(tokens):
            return Fault(number, text, len(text) + 1, "end", b"", kind, form, 0)
        if not kind.is_taken(tokens[at]):
            return Fault(number, text, places[at], kind.reason, tokens[at], kind, form, 0)
    if len(tokens) > len(form.kinds) + 1:
        at = len(form.kinds) + 1
        return Fault(number, text, places[at], "end", tokens[at], None, form, 0)
    for at, asked in enumerate(form.asked, 1):
        node = int(tokens[at]) if asked else 0
        if asked and (node in made) == (asked == "new"):
            return Fault(number, text, places[at], "node", tokens[at], form.kinds[at - 1], form, made.get(node, 0))
    return None


def first_fault(grammar: Grammar, script: bytes) -> Optional[Fault]:
    """The first bad line of a script."""
    made = {}
    for number, text in enumerate(script.removesuffix(b"\n").split(b"\n") if script else [], 1):
        fault = fault_of_line(grammar, number, text, made)
        if fault:
            return fault
        if text.startswith(b"node "):
            made[int(text[5:])] = number
    return None


# ---- what may have been meant: each hint is given where its function has something to say, the first alone


def mark_hint(fault: Fault, _: Grammar) -> str:
    coding = next((coding for mark, coding in MARKS.items() if fault.number == 1 and fault.text.startswith(mark)), "")
    return f"a byte order mark of {coding} stands before the first line: save the script as plain text without one" if coding else ""


def return_hint(fault: Fault, _: Grammar) -> str:
    if not fault.token.endswith(b"\r"):
        return ""
    return "the line ends with a carriage return: lines end with a line feed alone (`sed 's/\\r$//'` takes the others out)"


def tab_hint(fault: Fault, _: Grammar) -> str:
    return "a tab stands there: words are parted by one space" if b"\t" in fault.token else ""


def space_hint(fault: Fault, _: Grammar) -> str:
    if fault.token or not fault.text.endswith(b" ") and fault.place > len(fault.text):
        return ""
    if not fault.text.strip(b" "):
        return "the line has spaces alone: an empty line has none"
    if fault.place == 1:
        return "a space stands before the first word"
    if not fault.text[fault.place - 1 :].strip(b" "):
        return "a space stands behind the last word"
    return "two spaces stand in a row: words are parted by one"


def letter_hint(fault: Fault, _: Grammar) -> str:
    wide = any(byte > 126 for byte in fault.token)
    return "a letter beyond ASCII stands there, and no line has one but behind `#`" if wide else ""


def word_hint(fault: Fault, grammar: Grammar) -> str:
    """Of a word that is none: the next one that there is."""
    if fault.reason == "command":
        known = ["send"] if fault.kind else list(grammar.forms)
    elif fault.reason == "word":
        known = QUOTED.findall(fault.kind.takes)
    else:
        return ""
    word = fault.token.decode("latin-1")
    if fault.kind and fault.kind.name == "importance" and grammar.kinds["body"].is_taken(fault.token):
        return "an importance stands before the body"
    if fault.kind and fault.kind.name == "form" and number_of(fault.token) is not None:
        return "behind the port stands how the message finds its way: to a `port` of a node, by `name`, or `cast` to many"
    near = difflib.get_close_matches(word.lower(), known, 1)
    return f"is `{near[0]}` meant?" if near else ""


def linux_hint(fault: Fault, _: Grammar) -> str:
    """Of a command or a call of Linux TIPC: the line that does the same (docs/LINUX.md)."""
    if fault.reason != "command" or fault.kind or not LINUX.is_file():
        return ""
    words, found = fault.text.decode("latin-1").split(" "), {}
    for row in LINUX.read_text(encoding="utf-8").splitlines():
        cells = [cell.strip() for cell in row.strip("|").split("|")]
        for name in QUOTED.findall(cells[0]) if len(cells) == 3 else ():
            known = re.findall(r"[\w.]+", name)
            same = next((at for at, (one, other) in enumerate(zip(known, words)) if one != other), min(len(known), len(words)))
            found.setdefault(same, (name, cells[1], cells[2]))
    best = max(found, default=0)
    if not best:
        return ""
    name, line, remark = found[best]
    there = f"here it is {line}" if line != "none" else f"here is no such line: {remark}"
    return f"`{name}` is of Linux TIPC; {there} (docs/LINUX.md)"


def body_hint(fault: Fault, grammar: Grammar) -> str:
    if not fault.kind or fault.kind.name != "body" or not fault.token:
        return ""
    if fault.token in (b"low", b"medium", b"high", b"critical"):
        return "this line has no importance"
    text = fault.token.decode("latin-1")
    if fault.token[:1] not in b"=*":
        return f"a body that is written out begins with `=`: `={text}`" if grammar.kinds["body"].is_taken(b"=" + fault.token) else ""
    if fault.token[:1] == b"=" and len(fault.token) > 65:
        return f"it has {len(fault.token) - 1} letters: `*{len(fault.token) - 1}` is a body of that length"
    return ""


def end_hint(fault: Fault, _: Grammar) -> str:
    if fault.reason != "end" or not fault.token:
        return ""
    if fault.token.startswith(b"#"):
        return "a remark is a line of its own"
    if fault.form.kinds and fault.form.kinds[-1].name == "body":
        return "a body has no spaces"
    return ""


def number_hint(fault: Fault, _: Grammar) -> str:
    if fault.reason != "number":
        return ""
    text = fault.token.decode("latin-1")
    if number_of(fault.token) is not None:
        return f"{text} is out of that range"
    plain = re.sub(r"[,_']", "", text).lstrip("+").lstrip("0") or "0"
    if plain.isascii() and plain.isdigit():
        return f"a number is spelled in digits alone, without sign, comma or leading zero: `{plain}`"
    address = re.fullmatch(r"<?1\.1\.(\d+)>?", text)
    return f"a node is named by its number alone: `{address[1]}`" if address and fault.kind.name == "node" else ""


def node_hint(fault: Fault, _: Grammar) -> str:
    if fault.reason != "node":
        return ""
    node = fault.token.decode()
    if fault.made:
        return f"node {node} is there since line {fault.made}"
    return f"node {node} isn't there: a line `node {node}` before this one makes it"


HINTS = (mark_hint, return_hint, tab_hint, space_hint, letter_hint, linux_hint, word_hint, body_hint, end_hint, number_hint, node_hint)


def hint_of(fault: Fault, grammar: Grammar) -> str:
    return next((hint for of in HINTS if (hint := of(fault, grammar))), "")


# ---- the words


def shown(text: bytes) -> str:
    """Bytes as they can be seen."""
    known = {9: "\\t", 13: "\\r"}
    return "".join(chr(byte) if 32 <= byte < 127 else known.get(byte, f"\\x{byte:02x}") for byte in text)


def wanted(fault: Fault, grammar: Grammar) -> str:
    """What would have been good at the place."""
    if fault.reason == "node":
        return "a node that isn't there yet is wanted here" if fault.made else "a node that is there is wanted here"
    if fault.kind:
        at = fault.text[: fault.place - 1].rstrip(b" ").count(b" ")
        letter, name = fault.form.spelling.split(" ")[at + 1], fault.kind.name
        of = "" if letter == name or name == "number" else f" ({name})"
        which = "" if name in ("form", "send") else f"{letter}{of}, "
        begin = "a word is missing here" if fault.reason == "end" else "wanted here"
        return f"{begin}: {which}{fault.kind.takes.partition(': ')[0]}"
    if fault.form:
        return "this word is one too many"
    return "no line begins with this word; there are " + ", ".join(sorted(grammar.forms))


def pointed_at(fault: Fault) -> list:
    """The line, cut where it is long, and below it carets under the token."""
    begin = fault.place - 1
    cut = max(0, begin - LETTERS_SHOWN // 2) if len(fault.text) > LETTERS_SHOWN else 0
    before = ("..." if cut else "") + shown(fault.text[cut:begin])
    token = shown(fault.token)
    rest = shown(fault.text[begin : cut + LETTERS_SHOWN]) + ("..." if len(fault.text) > cut + LETTERS_SHOWN else "")
    number = str(fault.number)
    carets = "^" * min(max(len(token), 1), max(len(rest), 1), CARETS_SHOWN)
    return [f"{number} | {before}{rest}", f"{' ' * len(number)} | {' ' * len(before)}{carets}"]


def told(fault: Fault, grammar: Grammar) -> list:
    """What is said of a bad line, line by line."""
    lines = [f"line {fault.number} is bad at place {fault.place}, for the reason {fault.reason}:"]
    lines += [f"    {line}" for line in pointed_at(fault)]
    lines.append(wanted(fault, grammar))
    if hint := hint_of(fault, grammar):
        lines.append(hint)
    if fault.form:
        lines.append(f"the whole line is `{fault.form.spelling}` (docs/SCRIPTS.md)")
    return lines


def read_grammar() -> Grammar:
    return Grammar(FORMATS.read_text(encoding="utf-8"))


def main(words: list) -> int:
    if len(words) != 1:
        print(__doc__, file=sys.stderr)
        return 2
    try:
        grammar = read_grammar()
        fault = first_fault(grammar, pathlib.Path(words[0]).read_bytes())
    except (OSError, BadPage) as error:
        print(f"bad_line.py: {error}", file=sys.stderr)
        return 2
    if not fault:
        return 0
    print("\n".join(told(fault, grammar)))
    return 1


if __name__ == "__main__":
    sys.exit(main(sys.argv[1:]))
