#!/usr/bin/env python3
"""Compares the examples of the documents with what a program prints.

check_docs.py PROGRAM: all examples. It ends with a line `N passed, M failed`, and with status 1 where one failed or
the program isn't there.
check_docs.py --show [N]: all examples with their numbers and places; or the script of example N alone, whole, with the
block on which it goes on: `check_docs.py --show 7 | ./tipc_sim run`.

An example is one of these:

    docs/SCRIPTS.md,    a block that begins with ```script: on each line of it a line of the script, an arrow and the answer.
    docs/WALK.md        `script NAME` names the block; `script after NAME` goes on behind the block of that name.
    README.md           a command `./tipc_sim run < FILE`, and the first block behind it whose lines have the numbers 1, 2, ..
    examples/           NAME.txt and what it prints, NAME.report. It begins with a remark that says what it shows.
"""

import os
import re
import subprocess
import sys
from pathlib import Path
from typing import Iterator, NamedTuple

TOP = Path(__file__).resolve().parent.parent
PAGES = [TOP / "docs" / "SCRIPTS.md", TOP / "docs" / "WALK.md"]
ARROW = "→"
BLOCK = re.compile(r"^```script *([^\n]*)\n(.*?)^```$", re.MULTILINE | re.DOTALL)
FRAMES = re.compile(rf"^```dissect\n(.*?)^{ARROW}\n(.*?)^```$", re.MULTILINE | re.DOTALL)
COMMAND = re.compile(r"^    \./tipc_sim run < (\S+)$", re.MULTILINE)
REPORT = re.compile(r"(?:^    [0-9]+ [^\n]*\n)+", re.MULTILINE)

# The exit status, by the first word of the last answer; 0 for every other.
STATUS = {"bad": 2, "limit": 6}
SECONDS = 60


class Example(NamedTuple):
    place: str
    script: str
    report: str
    word: str = "run"


class BadPage(Exception):
    """A document isn't written as the head of this file says."""


def lines_of_block(place: str, text: str) -> list:
    """The lines of a block, each with its answer."""
    lines = []
    for line in text.splitlines():
        asked, arrow, answer = line.partition(ARROW)
        if not arrow:
            raise BadPage(f"{place}: no arrow in {line!r}")
        lines.append((asked.rstrip(" "), answer.strip(" ")))
    return lines


def examples_of_page(path: Path) -> Iterator[Example]:
    page, named = path.read_text(), {}
    for block in BLOCK.finditer(page):
        place = f"{path.name}:{page.count(chr(10), 0, block.start()) + 1}"
        lines, words = lines_of_block(place, block[2]), block[1].split()
        if words[:1] == ["after"]:
            if words[1] not in named:
                raise BadPage(f"{place}: no block has the name {words[1]}")
            lines = named[words[1]] + lines
        elif words:
            named[words[0]] = lines
        script = "".join(f"{asked}\n" for asked, _ in lines)
        report = "".join(f"{number} {answer}\n" for number, (_, answer) in enumerate(lines, 1))
        yield Example(place, script, report)


def frames_of_page(path: Path) -> Iterator[Example]:
    page = path.read_text()
    for block in FRAMES.finditer(page):
        yield Example(f"{path.name}:{page.count(chr(10), 0, block.start()) + 1}", block[1], block[2], "dissect")


def examples_of_readme() -> Iterator[Example]:
    text = (TOP / "README.md").read_text()
    for command in COMMAND.finditer(text):
        report = REPORT.search(text, command.end())
        if not report:
            raise BadPage(f"README.md: no report behind {command[0].strip()}")
        lines = (line.removeprefix("    ") for line in report[0].splitlines(keepends=True))
        yield Example(f"README.md, {command[1]}", (TOP / command[1]).read_text(), "".join(lines))


def examples_of_folder() -> Iterator[Example]:
    for path in sorted((TOP / "examples").glob("*.txt")):
        script = path.read_text()
        if not script.startswith("# "):
            raise BadPage(f"examples/{path.name} doesn't say first what it shows")
        yield Example(f"examples/{path.name}", script, path.with_suffix(".report").read_text())


def fault_of(program: str, example: Example) -> str:
    """What is wrong with an example; nothing where the program prints just that."""
    ended = subprocess.run([program, example.word], input=example.script.encode(), capture_output=True, timeout=SECONDS)
    printed, wanted = ended.stdout.decode().splitlines(), example.report.splitlines()
    for one, other in zip(wanted, printed):
        if one != other:
            return f"{other[:100]!r} is printed where the document has {one[:100]!r}"
    if len(printed) != len(wanted):
        return f"{len(printed)} lines are printed where the document has {len(wanted)}"
    last = next(line for line in reversed(wanted) if not line.startswith(" "))
    status = STATUS.get(last.split()[1], 0)
    return "" if ended.returncode == status else f"status {ended.returncode}, wanted {status}"


def all_examples() -> list:
    of_pages = [example for path in PAGES for example in (*examples_of_page(path), *frames_of_page(path))]
    return [*of_pages, *examples_of_readme(), *examples_of_folder()]


def show(words: list) -> int:
    """The examples with their numbers, or one of them."""
    examples = all_examples()
    if not words:
        for number, example in enumerate(examples, 1):
            own = example.script.splitlines()[-1]
            print(f"{number:4} {example.place:<36} .. {own}")
        return 0
    if len(words) > 1 or not words[0].isdigit() or not 1 <= int(words[0]) <= len(examples):
        print(f"--show N, with N from 1 to {len(examples)}", file=sys.stderr)
        return 1
    sys.stdout.write(examples[int(words[0]) - 1].script)
    return 0


def main(words: list) -> int:
    if words[:1] == ["--show"]:
        return show(words[1:])
    if len(words) != 1:
        print(__doc__, file=sys.stderr)
        return 1
    program = os.path.abspath(words[0])
    try:
        if not os.access(program, os.X_OK):
            raise BadPage(f"{program} isn't there, so no example was run")
        examples = all_examples()
    except (BadPage, OSError) as bad:
        print(f"FAILED {bad}")
        print("0 passed, 1 failed")
        return 1
    failed = 0
    for example in examples:
        fault = fault_of(program, example)
        if fault:
            failed += 1
            print(f"FAILED {example.place}: {fault}")
    print(f"{len(examples) - failed} passed, {failed} failed")
    return 1 if failed else 0


if __name__ == "__main__":
    sys.exit(main(sys.argv[1:]))
