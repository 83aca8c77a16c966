#!/usr/bin/env python3
"""Looks the charts and the picture of the documents up against the program.

check_charts.py PROGRAM: each stored chart (docs/charts/NAME.svg, of examples/NAME.txt) and the README's picture
(docs/picture.svg) has to be what tools/chart.py and tools/picture.py draw now. And each chart of the examples, and of
the rows that are run to their end and aren't long, is drawn and counted: the answers beside its lines are those of the
report; a line `pump` has as many arrows as it pumped, and a line `arrive` one, unless there was no frame; and each frame
of the air, of which `air` tells how many there are, has an arrow or more, or the cross of one that never arrives, and not
both; and no label lies over an arrow or another label.
It ends with a line `N passed, M failed`.

check_charts.py PROGRAM --write: draws the stored charts and the picture anew.
"""

import collections
import os
import pathlib
import sys
import xml.etree.ElementTree as ElementTree

import chart
import picture
import tracing

TOP = pathlib.Path(__file__).resolve().parent.parent
CHARTS = TOP / "docs" / "charts"
PICTURE = TOP / "docs" / "picture.svg"
STORED = (
    "a_service",
    "names_and_returns",
    "a_link_cut_under_load",
    "a_multicast_is_repaired",
    "service_tracking",
    "a_second_server_takes_over",
    "a_rolling_restart",
)
SVG = "{http://www.w3.org/2000/svg}"
# A script of more lines, or of more rounds in one, is passed over.
MOST_LINES, MOST_ROUNDS = 60, 50


class Marks:
    """What a chart shows: the answers and arrows by line, and the frames of arrows and of crosses."""

    def __init__(self, svg: str):
        root = ElementTree.fromstring(svg)
        self.answers, self.arrows = {}, collections.Counter()
        self.arrived, self.lost = set(), []
        for text in root.iter(f"{SVG}text"):
            if text.get("class") == "answer":
                whole = text.find(f"{SVG}title")
                self.answers[int(text.get("data-line"))] = (text.text or "") if whole is None else whole.text
        for path in root.iter(f"{SVG}path"):
            kind = (path.get("class") or "").split(" ")[0]
            if kind == "arrow":
                self.arrows[int(path.get("data-line"))] += 1
                self.arrived.add((int(path.get("data-bearer")), int(path.get("data-frame"))))
            elif kind == "lost":
                self.lost.append((int(path.get("data-bearer")), int(path.get("data-frame"))))


def sent(program: str, texts: list) -> set:
    """The places of all frames that a script sends, by bearer: as `air` counts them before each mark and at the end."""
    asked, places = [], []
    for text in [*texts, "mark"]:
        if text == "mark":
            places.append(len(asked))
            asked += ["air 0", "air 1"]
        asked.append(text)
    answers, totals = tracing.run(program, asked), [0, 0]
    for place in places:
        for bearer in (0, 1):
            totals[bearer] += int(answers[place + bearer].split()[1])
    return {(bearer, place) for bearer in (0, 1) for place in range(totals[bearer])}


def arrows_due(text: str, answer: str):
    """How many arrows a line has by its answer; None where the answer doesn't tell."""
    word = text.split(" ")[0]
    if word == "pump":
        return int(answer.split()[1])
    if word == "arrive":
        return 0 if answer == "no-frame" else 1
    return None if word in ("link", "settle", "burst") else 0


def fault_of(program: str, texts: list, svg: str) -> str:
    """What is wrong with a chart of a script; nothing where it is that of its report."""
    marks, report = Marks(svg), tracing.run(program, texts)
    for number, (text, answer) in enumerate(zip(texts, report), 1):
        if not text.startswith("#") and marks.answers.get(number) != answer:
            return f"line {number} has {marks.answers.get(number)!r} in the chart, {answer!r} in the report"
        due = arrows_due(text, answer)
        if due is not None and marks.arrows[number] != due:
            return f"line {number} has {marks.arrows[number]} arrows for {answer!r}"
    if len(set(marks.lost)) != len(marks.lost) or marks.arrived & set(marks.lost):
        return "a frame has two crosses, or a cross and an arrow"
    if marks.arrived | set(marks.lost) != sent(program, texts):
        return "arrows and crosses aren't those of all frames in the air"
    return ""


def is_short(texts: list) -> bool:
    """Whether a script's chart is drawn here in a moment."""
    rounds = [int(text.split()[1]) for text in texts if text.startswith("settle ") and text.split()[1].isdigit()]
    return len(texts) <= MOST_LINES and max(rounds, default=0) <= MOST_ROUNDS and not any(text.startswith("burst") for text in texts)


def scripts(program: str) -> dict:
    """By name, the scripts of the examples and of the rows that are run to their end."""
    paths = [*sorted((TOP / "examples").glob("*.txt")), *sorted((TOP / "rows").glob("*.script"))]
    found = {}
    for path in paths:
        texts = path.read_text(encoding="utf-8", errors="surrogateescape").removesuffix("\n").split("\n")
        if is_short(texts):
            try:
                tracing.run(program, texts)
            except tracing.CannotTrace:
                continue
            found[f"{path.parent.name}/{path.name}"] = texts
    return found


def stored_faults(program: str) -> list:
    """What is wrong with each stored chart and the picture."""
    drawn = {CHARTS / f"{name}.svg": chart.draw(program, TOP / "examples" / f"{name}.txt") for name in STORED}
    drawn[PICTURE] = picture.draw(program)
    faults = []
    for path, svg in drawn.items():
        there = path.read_text(encoding="utf-8") if path.is_file() else ""
        fault = "" if there == svg else "isn't what is drawn now: check_charts.py PROGRAM --write draws it"
        faults.append((str(path.relative_to(TOP)), fault))
    return faults


def drawn_faults(program: str) -> list:
    """What is wrong with the chart of each example and row."""
    faults = []
    for name, texts in scripts(program).items():
        try:
            made = chart.Drawing(tracing.trace(program, "\n".join(texts) + "\n"), name)
            fault = fault_of(program, texts, made.svg())
            faults.append((name, fault or (f"{made.labels.crowded} labels lie over others or arrows" if made.labels.crowded else "")))
        except tracing.CannotTrace as error:
            faults.append((name, str(error)))
    return faults


def write(program: str) -> int:
    CHARTS.mkdir(exist_ok=True)
    for name in STORED:
        (CHARTS / f"{name}.svg").write_text(chart.draw(program, TOP / "examples" / f"{name}.txt"), encoding="utf-8")
    PICTURE.write_text(picture.draw(program), encoding="utf-8")
    return 0


def main(words: list) -> int:
    if len(words) not in (1, 2) or words[1:] not in ([], ["--write"]):
        print(__doc__, file=sys.stderr)
        return 1
    program = os.path.abspath(words[0])
    if not os.access(program, os.X_OK):
        print(f"FAILED {program} isn't there\n0 passed, 1 failed")
        return 1
    if words[1:]:
        return write(program)
    faults = [*stored_faults(program), *drawn_faults(program)]
    failed = [(name, fault) for name, fault in faults if fault]
    for name, fault in failed:
        print(f"FAILED {name}: {fault}")
    print(f"{len(faults) - len(failed)} passed, {len(failed)} failed")
    return 1 if failed else 0


if __name__ == "__main__":
    sys.exit(main(sys.argv[1:]))
