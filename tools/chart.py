#!/usr/bin/env python3
"""Draws a script of tipc_sim and its report as a sequence chart.

chart.py [PROGRAM] SCRIPT [--html] [--lines A-B] [--no-state]: prints the chart as SVG, or as one HTML page that has the
script and its report below it; of these lines alone, and without the STATEs. Where no program is named it is the one
that ./prove made, or that of a release.

Time goes down. Each node has a line of its own. At the left stand the script's lines with their answers; a line that
lets frames arrive has each of them beneath it. An arrow goes from where and when a frame was sent to where and when it
arrived, and tells what the frame is and the answer; its fields that aren't 0 show under the pointer. A frame to all has an arrow to each
node at which it arrived. A frame that never arrives is a short line with a cross. An arrow has a colour by its answer:
taken; held, that is deferred; late, that is ignored or too old. A `link` line tells neither the answers of its frames nor
when each was sent: these arrows begin just above their heads. Frames of bearer 1 are dashed. Of a part of a script, what was sent before comes from above, and what arrives behind it is a short grey line.
"""

import argparse
import collections
import pathlib
import re
import sys
import textwrap
from typing import NamedTuple
from xml.sax.saxutils import escape

import tracing

SCRIPT_AT, ANSWER_AT, FIRST_NODE, BETWEEN, RIGHT = 40, 350, 700, 230, 190
SCRIPT_LETTERS, ANSWER_LETTERS, REMARK_LETTERS, FIELD_LETTERS = 42, 26, 68, 40
HEAD, LINE, PART, LOST, REMARK, FOOT = 84, 22, 14, 10, 15, 20
COLOURS = {"plain": "#57606a", "taken": "#1a7f37", "held": "#0969da", "late": "#bc4c00", "lost": "#cf222e"}
DASHED = ' stroke-dasharray="5 3"'
MEANINGS = {"plain": "arrived", "taken": "taken", "held": "held", "late": "late", "lost": "never arrives"}
# More arrows than these aren't drawn in one chart.
MOST_ARROWS = 2000
# How wide a letter of a label is, how high it is, and how far it stands from a node's line; and how high the strips are in
# which what lies near a label is looked for.
LETTER, HEIGHT, AWAY = 6.02, 10, 8
STRIP = 20
# What XML can't say.
UNSAYABLE = re.compile("[\x00-\x08\x0b-\x1f\ud800-\udfff]")
# Lines that are no call of one node.
NO_CALLS = ("", "node", "link", "pump", "mark", "air", "show", "arrive", "settle")
STYLE = (
    "text{font:12px monospace;fill:#1f2328}.remark,.number{fill:#6e7781}.label{font-size:10px}.gone{font-size:9px}"
    ".node{font-weight:bold;text-anchor:middle}"
    ".life{stroke:#d0d7de}.deed{fill:#1f2328}.arrow,.lost{fill:none;stroke-width:1.2}"
)


class Place(NamedTuple):
    """Where the parts of a chart stand: by line, by deed, by arrival and by lost frame its height; and the height of the whole."""

    lines: dict
    deeds: dict
    arrivals: list
    lost: list
    height: int


class Part:
    """A trace as far as it is drawn: these lines of it, with STATEs or without. Its deeds keep their numbers."""

    def __init__(self, told: tracing.Trace, first: int = 1, last: int = sys.maxsize, with_state: bool = True):
        self.whole, self.deeds = told, told.deeds
        self.lines = [line for line in told.lines if first <= line.number <= last]
        self.shown = range(first, last + 1)
        self.with_state = with_state
        self.arrivals = [arrival for arrival in told.arrivals if arrival.line in self.shown and self.is_shown(arrival.frame)]

    def is_shown(self, frame: tracing.Frame) -> bool:
        return self.with_state or frame.name().partition(" ")[0] != "STATE"

    def nodes(self) -> list:
        return self.whole.nodes()

    def lost(self) -> list:
        """The frames that these lines send and that don't arrive in them."""
        there = {(arrival.frame.bearer, arrival.frame.place) for arrival in self.whole.arrivals if arrival.line in self.shown}
        sent = (frame for frame in self.whole.frames if self.deeds[frame.deed].line in self.shown)
        return [frame for frame in sent if (frame.bearer, frame.place) not in there and self.is_shown(frame)]

    def comes_later(self, frame: tracing.Frame) -> bool:
        """Whether a frame that doesn't arrive in these lines arrives behind them."""
        return any((arrival.frame.bearer, arrival.frame.place) == (frame.bearer, frame.place) for arrival in self.whole.arrivals)


def class_of(answer: str) -> str:
    """The kind of an arrow, by the answer of the arrival."""
    first = answer.partition(" ")[0]
    return {"": "plain", "took": "taken", "deferred": "held"}.get(first, "late")


def remark_of(text: str) -> list:
    """A remark in lines that have room at the left."""
    return textwrap.wrap(text.lstrip("# "), REMARK_LETTERS)


def places_of(told: Part) -> Place:
    """Gives each part of the chart its height, from above."""
    deeds_of, arrived_in, lost_in, lost_ones = {}, {}, {}, told.lost()
    for number, deed in enumerate(told.deeds):
        deeds_of.setdefault(deed.line, []).append(number)
    for place, arrival in enumerate(told.arrivals):
        arrived_in.setdefault(arrival.deed, []).append(place)
    for place, frame in enumerate(lost_ones):
        lost_in.setdefault(frame.deed, []).append(place)
    lines, deeds = {}, {}
    arrivals, lost = [0] * len(told.arrivals), [0] * len(lost_ones)
    y = HEAD
    for line in told.lines:
        y += LINE
        lines[line.number] = y
        y += REMARK * max(len(remark_of(line.text)) - 1, 0) * line.text.startswith("#")
        for deed in deeds_of.get(line.number, []):
            is_own = told.deeds[deed].text == line.text
            y += 0 if is_own else PART
            deeds[deed] = y
            for place in arrived_in.get(deed, []):
                is_linked = line.text.startswith("link ")
                y += PART if is_linked else 0
                arrivals[place] = y
            for place in lost_in.get(deed, []):
                y += LOST
                lost[place] = y
    return Place(lines, deeds, arrivals, lost, y + FOOT)


def cut_short(text: str, letters: int) -> str:
    return text if len(text) <= letters else text[: letters - 1] + "…"


def text_at(x: float, y: float, text: str, kind: str, letters: int = 200, more: str = "") -> str:
    """A text; where it is cut short, the whole of it shows under the pointer."""
    shown = cut_short(text, letters)
    whole = "" if shown == text else f"<title>{escape(text)}</title>"
    return f'<text x="{x}" y="{y}" class="{kind}"{more}>{whole}{escape(shown)}</text>'


def fields_of(frame: tracing.Frame) -> str:
    """What shows of a frame under the pointer: the fields that aren't 0, of the packet and of the one inside it."""
    lines = (line for line in frame.told.text.splitlines()[1:] if not line.endswith(" 0"))
    return f"<title>{escape(', '.join(cut_short(line.strip(' '), FIELD_LETTERS) for line in lines))}</title>"


def head(kind: str, colour: str) -> str:
    """The head of the arrows of one kind."""
    size = 'markerWidth="7" markerHeight="6" refX="7" refY="3" orient="auto"'
    return f'<marker id="{kind}" {size}><path d="M0,0L7,3L0,6z" fill="{colour}"/></marker>'


def sample(x: int, colour: str, meaning: str, dash: str = "") -> list:
    """A short line beside what its colour means."""
    return [f'<path d="M{x},40h26" stroke="{colour}" stroke-width="2"{dash}/>', text_at(x + 32, 44, meaning, "label")]


def told_answer(answer: str) -> str:
    """The answer of an arrival as its label has it: nothing where a frame was taken that carries no message."""
    return "" if answer in ("", "took 0") else f": {answer}"


class Segment(NamedTuple):
    """A straight line from one point to another."""

    x: float
    y: float
    to_x: float
    to_y: float

    def crosses(self, left: float, top: float, right: float, bottom: float) -> bool:
        """Whether it comes into a box: what of it lies between the sides lies between top and bottom somewhere."""
        low, high = sorted((self.x, self.to_x))
        begin, end = max(left, low), min(right, high)
        if begin >= end:
            return False
        slope = (self.to_y - self.y) / (self.to_x - self.x)
        heights = sorted(self.y + slope * (x - self.x) for x in (begin, end))
        return heights[0] < bottom and heights[1] > top


def strips(top: float, bottom: float) -> range:
    """The strips of the chart that lie between two heights."""
    return range(int(top) // STRIP, int(bottom) // STRIP + 1)


class Labels:
    """Where labels stand: none over an arrow, or over another label, as far as there is such a place."""

    def __init__(self, segments: list):
        # What comes into each strip of the chart.
        self.segments, self.boxes = collections.defaultdict(list), collections.defaultdict(list)
        for segment in segments:
            for strip in strips(*sorted((segment.y, segment.to_y))):
                self.segments[strip].append(segment)
        # How many labels found no free place.
        self.crowded = 0

    def is_free(self, box: tuple) -> bool:
        left, top, right, bottom = box
        for strip in strips(top, bottom):
            if any(segment.crosses(*box) for segment in self.segments[strip]):
                return False
            if any(left < other[2] and other[0] < right and top < other[3] and other[1] < bottom for other in self.boxes[strip]):
                return False
        return True

    def place(self, places: list) -> tuple:
        """The first free place of these, each of which is a text, an x, a y, and whether the text ends there; else the first."""
        boxes = {place: self.box_at(*place) for place in places}
        free = [place for place in places if self.is_free(boxes[place])]
        self.crowded += not free
        chosen = (free or places)[0]
        for strip in strips(boxes[chosen][1], boxes[chosen][3]):
            self.boxes[strip].append(boxes[chosen])
        return chosen

    @staticmethod
    def box_at(text: str, x: float, y: float, is_end: bool) -> tuple:
        width = LETTER * len(text)
        left = x - width if is_end else x
        return left, y - HEIGHT + 2, left + width, y + 2


class Drawing:
    """The chart of a trace, or of a part of it."""

    def __init__(self, told, title: str):
        self.told, self.title = told if isinstance(told, Part) else Part(told), title
        self.places = places_of(self.told)
        nodes = sorted(self.told.nodes())
        self.nodes = {node: FIRST_NODE + BETWEEN * place for place, node in enumerate(nodes)}
        self.width = FIRST_NODE + BETWEEN * max(len(nodes) - 1, 0) + RIGHT
        self.labels = Labels([self.segment(arrival, y) for arrival, y in zip(self.told.arrivals, self.places.arrivals)])

    def svg(self) -> str:
        parts = [*self.frame(), *self.lines(), *self.deeds(), *self.arrows(), *self.lost()]
        return UNSAYABLE.sub("\ufffd", "\n".join([*parts, "</svg>", ""]))

    def segment(self, arrival: tracing.Arrival, y: int) -> Segment:
        """The way of a frame that arrives; where it was sent before the lines that are drawn, it comes from above."""
        is_linked = arrival.frame.deed == arrival.deed
        begin = y - PART if is_linked else self.places.deeds.get(arrival.frame.deed, HEAD)
        return Segment(self.nodes[arrival.frame.sender], begin - 4, self.nodes[arrival.node], y - 4)

    def frame(self) -> list:
        """The ground, the title, what colours mean, the heads of the arrows, and a line for each node."""
        width, height = self.width, self.places.height
        parts = [
            f'<svg xmlns="http://www.w3.org/2000/svg" viewBox="0 0 {width} {height}" width="{width}" height="{height}">',
            f"<title>{escape(self.title)}</title>",
            f"<style>{STYLE}</style>",
            f'<rect width="{width}" height="{height}" fill="#ffffff"/>',
            text_at(SCRIPT_AT, 22, self.title, "title", 90),
        ]
        for place, (kind, colour) in enumerate(COLOURS.items()):
            x = SCRIPT_AT + 130 * place
            parts += [head(kind, colour), *sample(x, colour, MEANINGS[kind])]
        parts += sample(SCRIPT_AT + 130 * len(COLOURS), "#57606a", "on bearer 1", DASHED)
        for node, at in self.nodes.items():
            parts.append(text_at(at, 66, f"node {node}", "node"))
            parts.append(f'<path class="life" d="M{at},72V{height - FOOT / 2}"/>')
        return parts

    def lines(self) -> list:
        """The script's lines with their answers; of a remark its words alone."""
        parts = []
        for line in self.told.lines:
            y, more = self.places.lines[line.number], f' data-line="{line.number}"'
            parts.append(text_at(SCRIPT_AT - 8, y, str(line.number), "number", more=' text-anchor="end"'))
            if line.text.startswith("#"):
                rows = enumerate(remark_of(line.text))
                parts += [text_at(SCRIPT_AT, y + REMARK * row, text, "remark") for row, text in rows]
                continue
            parts.append(text_at(SCRIPT_AT, y, line.text, "line", SCRIPT_LETTERS, more))
            parts.append(text_at(ANSWER_AT, y, line.answer, "answer", ANSWER_LETTERS, more))
        return parts

    def deeds(self) -> list:
        """A dot for each call of a node, on the node's line."""
        parts = []
        for number, deed in enumerate(self.told.deeds):
            words = deed.text.split(" ")
            words = words[2:] if words[0] == "repeat" else words
            if words[0] in NO_CALLS or words[0].startswith("#") or number not in self.places.deeds:
                continue
            x, y = self.nodes[int(words[1])], self.places.deeds[number] - 4
            parts.append(f'<circle class="deed" cx="{x}" cy="{y}" r="2.5"><title>{escape(deed.text)}</title></circle>')
        return parts

    def arrows(self) -> list:
        """An arrow for each frame that arrives."""
        return [self.arrow(arrival, self.segment(arrival, y)) for arrival, y in zip(self.told.arrivals, self.places.arrivals)]

    def arrow(self, arrival: tracing.Arrival, way: Segment) -> str:
        frame, kind = arrival.frame, class_of(arrival.answer)
        dash = DASHED if frame.bearer else ""
        names = f'data-line="{arrival.line}" data-bearer="{frame.bearer}" data-frame="{frame.place}"'
        line = f'd="M{way.x},{way.y}L{way.to_x},{way.to_y}" stroke="{COLOURS[kind]}" marker-end="url(#{kind})"{dash}'
        text = frame.name() + told_answer(arrival.answer)
        return f'<path class="arrow {kind}" {line} {names}>{fields_of(frame)}</path>' + self.label(text, f"{frame.sender} to {arrival.node}: {text}", way)

    def label(self, text: str, whole: str, way: Segment) -> str:
        """A label behind the head of an arrow, or, where that place isn't free, behind the tail or beside the head; else left
        of all nodes, where it names the two."""
        is_left = way.to_x < way.x
        away = -AWAY if is_left else AWAY
        head, tail = way.to_y + 4, way.y + 4
        near = [(way.to_x + away, head, is_left), (way.x - away, tail, not is_left), (way.to_x - away, head + HEIGHT, not is_left)]
        places = [(text, *place) for place in near] + [(whole, FIRST_NODE - 2 * AWAY, head, True)]
        told, x, y, is_end = self.labels.place(places)
        return text_at(x, y, told, "label", more=' text-anchor="end"' if is_end else "")

    def lost(self) -> list:
        """A short line for each frame that doesn't arrive, with a cross where it never does."""
        parts = []
        for frame, y in zip(self.told.lost(), self.places.lost):
            is_late = self.told.comes_later(frame)
            start, colour = self.nodes[frame.sender], COLOURS["plain" if is_late else "lost"]
            way = 1 if self.nodes.get(frame.receiver, start + 1) > start else -1
            dash = DASHED if frame.bearer else ""
            x, at = start + way * 46, y - 4
            names = f'data-bearer="{frame.bearer}" data-frame="{frame.place}"'
            begin = self.places.deeds[frame.deed] - 4
            cross = "" if is_late else f"M{x - 4},{at - 4}l8,8m0,-8l-8,8"
            line = f'd="M{start},{begin}L{x},{at}{cross}" stroke="{colour}"{dash}'
            path = f'<path class="lost" {line} {names}>{fields_of(frame)}</path>'
            anchor = "" if way > 0 else ' text-anchor="end"'
            parts.append(path + text_at(x + way * 8, at + 3, frame.name(), "gone", more=anchor))
        return parts


def read(script: pathlib.Path) -> str:
    """A script byte by byte as the program reads it: no line end is changed, and any byte may stand in it."""
    return script.read_bytes().decode("utf-8", "surrogateescape")


def drawing(program: str, script: pathlib.Path, lines: tuple = (1, sys.maxsize), with_state: bool = True) -> Drawing:
    """The chart of a script file."""
    part = Part(tracing.trace(program, read(script)), *lines, with_state)
    if len(part.arrivals) > MOST_ARROWS:
        raise tracing.CannotTrace(f"{len(part.arrivals)} frames arrive, more than {MOST_ARROWS}: --lines A-B draws some of the lines")
    return Drawing(part, script.stem.replace("_", " "))


def draw(program: str, script: pathlib.Path, **how) -> str:
    """The chart as SVG."""
    return drawing(program, script, **how).svg()


def page(program: str, script: pathlib.Path, **how) -> str:
    """The chart as one HTML page, with the script and its report."""
    made = drawing(program, script, **how)
    lines = "\n".join(f"{line.number:4} {line.text}" for line in made.told.lines)
    report = "\n".join(f"{line.number:4} {line.answer}" for line in made.told.lines)
    text = (
        f'<!doctype html>\n<html lang="en">\n<meta charset="utf-8">\n<title>{escape(made.title)}</title>\n'
        f"{made.svg()}"
        f"<h2>The script</h2>\n<pre>{escape(lines)}</pre>\n<h2>Its report</h2>\n<pre>{escape(report)}</pre>\n</html>\n"
    )
    return UNSAYABLE.sub("\ufffd", text)


def lines_of(text: str) -> tuple:
    """The first and the last line of `A-B`."""
    first, _, last = text.partition("-")
    if not (first.isdigit() and last.isdigit() and 1 <= int(first) <= int(last)):
        raise argparse.ArgumentTypeError(f"{text!r} is no A-B, as in 12-30")
    return int(first), int(last)


def words_of(words: list) -> argparse.Namespace:
    parser = argparse.ArgumentParser(prog="chart.py", description="Draws a script of tipc_sim and its report as a sequence chart.")
    parser.add_argument("program", nargs="?", default=tracing.own_program())
    parser.add_argument("script", type=pathlib.Path)
    parser.add_argument("--html", action="store_true", help="one HTML page, with the script and its report")
    parser.add_argument("--lines", type=lines_of, default=(1, sys.maxsize), metavar="A-B", help="these lines alone")
    parser.add_argument("--no-state", action="store_true", help="without the STATEs")
    return parser.parse_args(words)


def main(words: list) -> int:
    asked = words_of(words)
    if not asked.program:
        print("chart.py: the proved program isn't there, which ./prove makes; chart.py PROGRAM SCRIPT names another one", file=sys.stderr)
        return 1
    try:
        make = page if asked.html else draw
        sys.stdout.write(make(asked.program, asked.script, lines=asked.lines, with_state=not asked.no_state))
    except (tracing.CannotTrace, OSError) as error:
        print(f"chart.py: {error}", file=sys.stderr)
        return 2
    return 0


if __name__ == "__main__":
    sys.exit(main(sys.argv[1:]))
