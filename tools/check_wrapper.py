#!/usr/bin/env python3
"""Looks that ./tipc_sim says what docs/SCRIPTS.md and README.md have it say, and that it is the program else.

check_wrapper.py PROGRAM: in a copy of what ./tipc_sim needs, with that program as the proved one. It ends with a line
`N passed, M failed`.

    Bad lines  each row of the table of docs/SCRIPTS.md is said so, and its closing line is that of the program; each line of
               rows/bad_lines.table, and each row of rows/ that ends with a bad line, is found bad at the same line and place
               for the same reason, and no line of another row or example is; so is a line of each form with one token
               that isn't of its kind, that is missing, or that names a node that isn't there, or is.
    Words      those that are no form are refused at once, without a run; the words that ask for help are answered so.
    Runs       a file, standard input and a pipe give what the program gives, with nothing on standard error where all went well.
    Age        a source of a crate on which tipc_sim doesn't stand makes nothing old; one on which it stands does.
"""

import importlib.machinery
import importlib.util
import os
import pathlib
import pty
import re
import shutil
import subprocess
import sys
import tempfile
import time

import bad_line
import run_rows

TOP = pathlib.Path(__file__).resolve().parent.parent
NEEDED = ("tipc_sim", "CHANGELOG.md", "crates.txt", "tools", "docs", "examples")
CASES = re.compile(r"^### What `\./tipc_sim` says of a bad line$.*?^\|[-|]+\n((?:\|[^\n]*\n)+)", re.MULTILINE | re.DOTALL)
EXAMPLE = "first_message"
# In seconds. A run without the proved program takes a minute and more.
SOON = 10
MOST_BYTES = 1 << 24
KINDS = ("src", "specs", "proofs")
HELPED = (["--help"], ["-h"], ["help"], ["run", "--help"], ["gen", "--help"], ["live", "-h"], ["help", "send"], ["--version"])
REFUSED = ([], ["walk"], ["run", "a", "b"], ["gen", "0"], ["gen"], ["live", "memory", "2", "2"], ["help", "walk"])


def wrapper():
    """./tipc_sim as a module."""
    loader = importlib.machinery.SourceFileLoader("wrapper", str(TOP / "tipc_sim"))
    spec = importlib.util.spec_from_loader("wrapper", loader)
    module = importlib.util.module_from_spec(spec)
    loader.exec_module(module)
    return module


def bytes_of(text: str) -> bytes:
    """A line of a table, in which what can't be seen is written as \\r, \\t, \\n and \\xff."""
    return text.encode("ascii").decode("unicode_escape").encode("latin-1")


def closing(fault) -> str:
    return f"{fault.number} bad {fault.place} {fault.reason}" if fault else ""


# ---- bad lines


def said_faults(program: str, grammar) -> list:
    """The table of docs/SCRIPTS.md: a line, how the report ends, and what is said of it."""
    table, faults = CASES.search((TOP / "docs" / "SCRIPTS.md").read_text(encoding="utf-8")), []
    for row in table[1].splitlines() if table else []:
        line, end, words = (cell.strip() for cell in row.strip("|").split(" | "))
        script = bytes_of(line.strip("`")) + b"\n"
        fault = bad_line.first_fault(grammar, script)
        printed = subprocess.run([program, "run"], input=script, capture_output=True, check=False).stdout.decode().splitlines()
        told = (bad_line.hint_of(fault, grammar) or bad_line.wanted(fault, grammar)) if fault else ""
        ends = (closing(fault), printed[-1] if printed else "")
        wrong = "" if ends == (end.strip("`"),) * 2 and told == words else f"ends {ends}, and {told!r} is said"
        faults.append((f"docs/SCRIPTS.md, {line}", wrong))
    return faults or [("docs/SCRIPTS.md", "no table of bad lines is there")]


def found_faults(grammar) -> list:
    """The bad lines of rows/, and those that aren't."""
    faults = []
    for row in (TOP / "rows" / "bad_lines.table").read_text(encoding="ascii").splitlines():
        end, _, line = row.partition("\t")
        if not row.startswith("#"):
            told = closing(bad_line.first_fault(grammar, bytes_of(line) + b"\n"))
            faults.append((f"rows/bad_lines.table, {line}", "" if told == f"1 bad {end}" else f"{told!r}, wanted {end!r}"))
    for path in [*sorted((TOP / "rows").glob("*.script")), *sorted((TOP / "examples").glob("*.txt"))]:
        report = path.with_suffix(".report")
        lines = report.read_bytes().decode("latin-1").splitlines() if report.is_file() else []
        if not lines or lines[-1].split(" ")[1] == "limit" or not run_rows.words_of(path.stem) == ["run"]:
            continue
        end = lines[-1] if lines[-1].split(" ")[1] == "bad" else ""
        told = closing(bad_line.first_fault(grammar, path.read_bytes()))
        faults.append((path.name, "" if told == end else f"{told!r}, wanted {end!r}"))
    return faults


# A token of each kind, one that is none, and the lines before: nodes 1 and 2 are there.
BEFORE = "node 1\nnode 2\n"
SAMPLES = {"node": "1", "bearer": "0", "number": "7", "frame": "0", "rounds": "0", "times": "1", "send": "send", "scope": "cluster"}
SAMPLES |= {"importance": "low", "filter": "ports", "body": "=x"}
NO_TOKEN = "?"


def tokens_of(form: bad_line.Form) -> list:
    """A good line of a form, but that a node that mustn't be there is 3."""
    words = form.spelling.split(" ")
    samples = [word if kind.name == "form" else SAMPLES[kind.name] for word, kind in zip(words[1:], form.kinds)]
    return [words[0], *("3" if asked == "new" else sample for sample, asked in zip(samples, form.asked))]


def lines_of(form: bad_line.Form) -> list:
    """Lines of a form: a good one, and each with one thing wrong."""
    good = tokens_of(form)
    lines = [good, [*good, "more"]]
    for at, kind in enumerate(form.kinds, 1):
        others = [NO_TOKEN, *(("1", "32") if kind.name == "node" else ())]
        lines += [[*good[:at], other, *good[at + 1 :]] for other in others] + [good[:at]]
    return [" ".join(line) for line in lines]


def grammar_faults(program: str, grammar) -> list:
    """Each form of a line is read as the program reads it."""
    forms = [form for word, forms in grammar.forms.items() if word != "repeat" for form in forms]
    for form in grammar.forms["send"]:
        tokens = [token.encode() for token in ["repeat", "1", *tokens_of(form)]]
        forms.append(grammar.repeated(grammar.forms["repeat"][0], tokens))
    faults = []
    for form in forms:
        wrong = ""
        for line in lines_of(form):
            script = f"{BEFORE}{line}\n".encode()
            printed = subprocess.run([program, "run"], input=script, capture_output=True, check=False).stdout.decode().splitlines()
            end = printed[-1] if printed[-1].split(" ")[1] == "bad" else ""
            if (told := closing(bad_line.first_fault(grammar, script))) != end:
                wrong = f"{line!r}: {told!r}, and the program has {end!r}"
        faults.append((f"the form `{form.spelling}`", wrong))
    return faults


# ---- words


def form_faults(module) -> list:
    """Words are refused just where the program refuses them, but for those with a file, of which the program knows nothing."""
    words = {name: run_rows.words_of(name) for name in run_rows.names_of_rows()}
    words = {name: of for name, of in words.items() if not (len(of) == 2 and of[0] in module.READERS and of[1])}
    refused = {name for name in words if run_rows.status_of(name) == run_rows.USAGE}
    wrong = {f"row {name}": of for name, of in words.items() if (module.words_of(of) is None) != (name in refused)}
    wrong |= {name: of for name, of in run_rows.NO_LIVE_RUNS.items() if module.words_of(of) is not None}
    wrong |= {name: plan for name, plan in run_rows.LIVE_RUNS.items() if module.words_of(["live", *map(str, plan)]) is None}
    return [("the words of rows/", f"not as the program has it: {wrong}" if wrong else "")]


class Room:
    """A copy of what ./tipc_sim needs, with one source for each crate, and the program where it is given one."""

    def __init__(self, folder: pathlib.Path, program: str):
        self.folder = folder
        for name in NEEDED:
            copy = shutil.copytree if (TOP / name).is_dir() else shutil.copy
            copy(TOP / name, folder / name)
        for line in (TOP / "crates.txt").read_text(encoding="utf-8").splitlines():
            if not line.startswith("#"):
                source = self.source_of(line.partition(":")[0].split()[0])
                source.parent.mkdir(parents=True)
                source.touch()
                os.utime(source, (1, 1))
        if program:
            self.built = folder / "crates" / "tipc_sim" / "out" / "tipc_sim"
            self.built.parent.mkdir()
            shutil.copy(program, self.built)

    def source_of(self, crate: str) -> pathlib.Path:
        return self.folder / "crates" / crate / "src" / "lib.rt"

    def run(self, words: list, **how) -> subprocess.CompletedProcess:
        """./tipc_sim with these words, and without the command rt."""
        python = os.path.dirname(sys.executable)
        there = {**os.environ, "PATH": f"{python}:/usr/bin:/bin"}
        how = {"stdin": subprocess.DEVNULL, **how} if "input" not in how else how
        command = [sys.executable, self.folder / "tipc_sim", *words]
        return subprocess.run(command, capture_output=True, env=there, timeout=60, check=False, **how)


def word_faults(room: Room) -> list:
    """Where no program is there, and no rt, all that asks for no run is answered, and at once."""
    faults = []
    for status, of in ((0, HELPED), (1, REFUSED)):
        for words in of:
            begun = time.monotonic()
            ended = room.run(words)
            texts = (ended.stdout, ended.stderr) if status == 0 else (ended.stderr, ended.stdout)
            is_right = ended.returncode == status and texts[0] and not texts[1] and time.monotonic() - begun < SOON
            fault = "" if is_right else f"status {ended.returncode}, {ended.stdout[:99]}, {ended.stderr[:99]}"
            faults.append((f"./tipc_sim {' '.join(words)}", fault))
    bad = room.folder / "bad.txt"
    bad.write_bytes(b"node 1\nnode 33\n")
    faults.append(("a bad line before an unproved run", fault_of(room.run(["run", str(bad)]), 70, b"", b"33 is out of that range")))
    return faults


# ---- runs


def run_faults(room: Room) -> list:
    """What is run, against the program itself: its words, what it is given, and what is said on standard error."""
    script = (TOP / "examples" / f"{EXAMPLE}.txt").read_bytes()
    report = (TOP / "examples" / f"{EXAMPLE}.report").read_bytes()
    file = room.folder / "examples" / f"{EXAMPLE}.txt"
    bad = room.folder / "bad.txt"
    bad.write_bytes(b"node 1\nnode 33\n")
    opened = {"stdin": file.open("rb")}
    shell = ["sh", "-c", 'exec "$0" "$1" run <&-', sys.executable, str(room.folder / "tipc_sim")]
    closed = subprocess.run(shell, capture_output=True, timeout=60, check=False)
    ended = {
        "run FILE": (room.run(["run", str(file)]), 0, report, b""),
        "run < FILE": (room.run(["run"], **opened), 0, report, b""),
        "cat FILE | run": (room.run(["run"], input=script), 0, report, b""),
        "run of a bad line": (room.run(["run", str(bad)]), 2, b"1 ok\n2 bad 6 number\n", b"2 | node 33\ntipc_sim:       |      ^^\n"),
        "run of a piped bad line": (room.run(["run"], input=bad.read_bytes()), 2, b"1 ok\n2 bad 6 number\n", b"33 is out of that range"),
        "run of no file": (room.run(["run", str(room.folder / "none")]), 3, b"", b"No such file"),
        "run of a folder": (room.run(["run", str(room.folder)]), 3, b"", b"can't be read"),
        "run of a closed input": (closed, 3, b"", b"can't be read"),
        "run of too many bytes": (room.run(["run"], input=b"\n" * (MOST_BYTES + 5)), 6, b"0 limit bytes 16777216\n", b"a limit"),
        "gen 1000": (room.run(["gen", "1000"]), 0, None, b""),
        "live memory 2 1 1": (room.run(["live", "memory", "2", "1", "1"]), 0, None, b""),
    }
    with run_rows.take_port(run_rows.BASE_PORT + 64 + 2):
        ended["live over a taken port"] = (room.run(["live", "udp", "2", "1", "1"]), 7, b"", b"a socket couldn't be bound")
    return [(f"./tipc_sim {name}", fault_of(*of)) for name, of in ended.items()]



def terminal_fault(room: Room) -> list:
    """At a terminal it is said how a script ends, and what is typed runs; not tried where no terminal can be made."""
    try:
        ours, theirs = pty.openpty()
    except OSError:
        return []
    os.write(ours, b"node 1\nnode 1\n\x04")
    ended = room.run(["run"], stdin=theirs)
    os.close(ours)
    os.close(theirs)
    said = ended.stderr.decode()
    is_right = ended.stdout == b"1 ok\n2 bad 6 node\n" and "Ctrl-D" in said and "node 1 is there since line 1" in said
    return [("./tipc_sim run at a terminal", "" if is_right else f"{ended.stdout!r}, {said[:200]!r}")]


def fault_of(ended: subprocess.CompletedProcess, status: int, printed, said: bytes) -> str:
    """What is wrong with a run: its status, what it printed, and a part of what was said, or nothing where nothing may be."""
    if ended.returncode != status or printed is not None and ended.stdout != printed:
        return f"status {ended.returncode}, {ended.stdout[:100]!r}, {ended.stderr[:200]!r}"
    return "" if (said in ended.stderr if said else not ended.stderr) else f"{ended.stderr[:300]!r} is said"


def age_faults(room: Room) -> list:
    """Which sources make the program old."""
    script, faults = room.folder / "examples" / f"{EXAMPLE}.txt", []
    later = room.built.stat().st_mtime + 10
    for crate, kind, status in (("tipc_link_tests", "src", 0), ("of_my_own", "src", 0), *(("tipc_types", kind, 70) for kind in KINDS)):
        source = room.folder / "crates" / crate / kind / "newer"
        source.parent.mkdir(parents=True, exist_ok=True)
        source.touch()
        os.utime(source, (later, later))
        with (room.folder / "crates.txt").open("a", encoding="utf-8") as lines:
            lines.write("of_my_own: tipc_node\n" if crate == "of_my_own" else "")
        ended = room.run(["run", str(script)])
        faults.append((f"a newer file of {crate}, {kind}", fault_of(ended, status, None, b"unproved" if status else b"")))
        source.unlink()
    return faults


def main(words: list) -> int:
    if len(words) != 1:
        print(__doc__, file=sys.stderr)
        return 1
    program = os.path.abspath(words[0])
    if not os.access(program, os.X_OK):
        print(f"FAILED {program} isn't there\n0 passed, 1 failed")
        return 1
    grammar = bad_line.read_grammar()
    faults = [*said_faults(program, grammar), *found_faults(grammar), *grammar_faults(program, grammar), *form_faults(wrapper())]
    with tempfile.TemporaryDirectory(prefix="wrapper-") as one, tempfile.TemporaryDirectory(prefix="wrapper-") as other:
        faults += word_faults(Room(pathlib.Path(one), ""))
        room = Room(pathlib.Path(other), program)
        faults += [*run_faults(room), *terminal_fault(room), *age_faults(room)]
    failed = [(name, fault) for name, fault in faults if fault]
    for name, fault in failed:
        print(f"FAILED {name}: {fault}")
    print(f"{len(faults) - len(failed)} passed, {len(failed)} failed")
    return 1 if failed else 0


if __name__ == "__main__":
    sys.exit(main(sys.argv[1:]))
