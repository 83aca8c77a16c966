#!/usr/bin/env python3
"""Looks that the tools for users do what they say: the shell, charts of a part, examples by number, a release, and that the
lines that docs/LINUX.md names are there.

check_tools.py PROGRAM: ends with a line `N passed, M failed`.
"""

import os
import pathlib
import re
import shutil
import subprocess
import sys
import tempfile

import bad_line
import chart
import check_docs
import tracing

TOP = pathlib.Path(__file__).resolve().parent.parent
EXAMPLE = TOP / "examples" / "a_link_cut_under_load.txt"
# What is typed, and what is answered: each line's answers, or a part of them.
TYPED = [
    ("node 1", "ok"),
    ("node 2", "ok"),
    ("link 1 2 0", "up"),
    ("send 1 1 port 2 1 low =x", "no-socket"),
    ("undo", "taken back: send 1 1 port 2 1 low =x"),
    ("socket 1", "socket 1"),
    ("send 1 1 port 2 1 low x", "a body that is written out begins with `=`: `=x`"),
    ("node 1", "node 1 is there since line 1"),
    ("settle 1000000", "limit frames 100000 (status 6; the line isn't taken)"),
    ("help link", "link a b x"),
    ("send 1 1 port 2 1 low =x", "sent"),
    ("script", "   5 send 1 1 port 2 1 low =x                     sent"),
    ("save SCRIPT", "5 lines are in SCRIPT"),
    ("chart CHART", "the chart is in CHART"),
    ("quit", ""),
]
SAVED = "node 1\nnode 2\nlink 1 2 0\nsocket 1\nsend 1 1 port 2 1 low =x\n"


def run(name: str, *words, given: str = "", place: pathlib.Path = TOP) -> subprocess.CompletedProcess:
    """Runs a tool."""
    command = [sys.executable, place / "tools" / f"{name}.py", *words]
    return subprocess.run(command, input=given, capture_output=True, text=True, timeout=60, check=False)


def shell_faults(program: str, room: pathlib.Path) -> list:
    """The shell answers what is typed, line by line."""
    script, drawn = room / "script.txt", room / "chart.html"
    pairs = [[text.replace("SCRIPT", str(script)).replace("CHART", str(drawn)) for text in pair] for pair in TYPED]
    ended = run("shell", "--program", program, given="".join(f"{typed}\n" for typed, _ in pairs))
    faults, rest = [], ended.stdout
    for typed, wanted in pairs:
        place = rest.find(wanted)
        faults.append((f"shell.py, {typed}", "" if place >= 0 else f"{wanted!r} isn't in {rest[:200]!r}"))
        rest = rest[max(place, 0) :]
    faults.append(("shell.py, save", "" if script.read_text(encoding="utf-8") == SAVED else "the script isn't what was typed"))
    faults.append(("shell.py, chart", "" if "<svg" in drawn.read_text(encoding="utf-8") else "no chart was drawn"))
    again = run("shell", "--program", program, str(script), given="undo\nsend 1 1 port 2 9 low =y\n")
    faults.append(("shell.py SCRIPT", "" if again.stdout.endswith("taken back: send 1 1 port 2 1 low =x\nsent\n") else again.stdout))
    return faults


def completion_faults(program: str) -> list:
    """The tabulator key completes first words, words of a kind, and the nodes that there are."""
    import shell

    made = shell.Shell(program)
    made.take("node 7")
    cases = {"no": ["node"], "tick ": ["7"], "send 7 1 p": ["port"], "send 7 1 port 7 1 h": ["high"], "un": ["undo"], "mark ": []}
    told = {typed: made.completions(typed) for typed in cases}
    return [(f"shell.py, {typed!r} completed", "" if told[typed] == wanted else str(told[typed])) for typed, wanted in cases.items()]


def part_faults(program: str) -> list:
    """A chart of some lines has those alone; one without STATEs has none, and all else."""
    told = tracing.trace(program, chart.read(EXAMPLE))
    whole, plain = chart.Drawing(chart.Part(told), ""), chart.Drawing(chart.Part(told, with_state=False), "")
    part = chart.Drawing(chart.Part(told, 16, 24), "").svg()
    lines = {int(number) for number in re.findall(r'data-line="(\d+)"', part)}
    states = sum(arrival.frame.name().startswith("STATE") for arrival in told.arrivals)
    less = whole.svg().count('class="arrow') - plain.svg().count('class="arrow')
    return [
        ("chart.py --lines 16-24", "" if lines and lines <= set(range(16, 25)) else f"it has lines {sorted(lines)}"),
        ("chart.py --no-state", "" if 0 < less == states else f"{less} arrows less, of {states} STATEs"),
        ("chart.py, took 0", "took 0 is told" if ": took 0<" in whole.svg() else ""),
    ]


def refused_faults(program: str, room: pathlib.Path) -> list:
    """What the program refuses isn't drawn, and any bytes may stand in a remark."""
    faults, script = [], room / "odd.txt"
    contents = {"CRLF": (b"node 1\r\n", 2), "binary": (bytes(range(256)), 2), "odd remark": (b"# \xff\x01\nnode 1\n", 0)}
    for name, (content, status) in contents.items():
        script.write_bytes(content)
        ended = run("chart", program, str(script))
        is_right = ended.returncode == status and "Traceback" not in ended.stderr
        faults.append((f"chart.py, {name}", "" if is_right else f"status {ended.returncode}: {ended.stderr[-200:]}"))
    return faults


def linux_faults() -> list:
    """The first word of each line that docs/LINUX.md names begins a line of a script."""
    grammar, faults = bad_line.read_grammar(), []
    page = (TOP / "docs" / "LINUX.md").read_text(encoding="utf-8")
    forms = {form.spelling for forms in grammar.forms.values() for form in forms}
    cells = [row.split(" | ")[1] for row in page.splitlines() if row.startswith("| ") and not row.startswith("| Linux")]
    named = [line for cell in cells for line in bad_line.QUOTED.findall(cell) if line.split(" ")[0] in grammar.forms and " " in line]
    faults += [(f"docs/LINUX.md, {line}", "" if line in forms else "it is no form of a line") for line in named]
    return faults or [("docs/LINUX.md", "it names no line")]


def show_faults() -> list:
    """An example by its number is the script that is run."""
    examples = check_docs.all_examples()
    shown = run("check_docs", "--show", str(len(examples))).stdout
    listed = run("check_docs", "--show").stdout.splitlines()
    is_right = shown == examples[-1].script and len(listed) == len(examples)
    return [("check_docs.py --show", "" if is_right else f"{len(listed)} listed, {shown[:100]!r}")]


def release_faults(program: str, room: pathlib.Path) -> list:
    """A release of a clone runs a script by itself, and its files have their checksums."""
    clone, folder = room / "clone", room / "release"
    subprocess.run(["git", "clone", "--quiet", "--shared", str(TOP), str(clone)], check=True)
    (clone / "crates" / "tipc_sim" / "out").mkdir(parents=True)
    shutil.copy(program, clone / "crates" / "tipc_sim" / "out" / "tipc_sim")
    made = run("release", str(folder), place=clone)
    if made.returncode:
        return [("release.py", made.stderr)]
    script = folder / "examples" / "first_message.txt"
    ended = subprocess.run([sys.executable, folder / "tipc_sim", "run", script], capture_output=True, check=False)
    summed = subprocess.run(["sha256sum", "--quiet", "-c", "FILES"], cwd=folder, capture_output=True, check=False)
    again = run("release", str(folder), place=clone)
    typed = run("shell", given=f"node 1\nchart {room / 'release.svg'}\n", place=folder)
    return [
        ("release.py, the shell", "" if typed.stdout.startswith("ok\nthe chart is in ") else typed.stdout + typed.stderr),
        ("release.py, a run", "" if ended.stdout == script.with_suffix(".report").read_bytes() and not ended.stderr else str(ended)),
        ("release.py, checksums", summed.stdout.decode()),
        ("release.py, a folder that is there", "" if again.returncode == 1 else again.stdout),
    ]


def main(words: list) -> int:
    if len(words) != 1:
        print(__doc__, file=sys.stderr)
        return 1
    program = os.path.abspath(words[0])
    if not os.access(program, os.X_OK):
        print(f"FAILED {program} isn't there\n0 passed, 1 failed")
        return 1
    with tempfile.TemporaryDirectory(prefix="tools-") as name:
        room = pathlib.Path(name)
        faults = [*shell_faults(program, room), *completion_faults(program), *part_faults(program), *refused_faults(program, room)]
        faults += [*linux_faults(), *show_faults(), *release_faults(program, room)]
    failed = [(name, fault) for name, fault in faults if fault]
    for name, fault in failed:
        print(f"FAILED {name}: {fault}")
    print(f"{len(faults) - len(failed)} passed, {len(failed)} failed")
    return 1 if failed else 0


if __name__ == "__main__":
    sys.exit(main(sys.argv[1:]))
