#!/usr/bin/env python3
"""Traces a script of tipc_sim: which frames it sends, and which of them arrive, where and with what answer.

tracing.py PROGRAM SCRIPT: a line for each arrival of a frame, and one for each frame that never arrives. A frame to all arrives at each node
but its sender.

What a frame is, the program tells (tools/dissecting.py).

`pump`, `settle` and `burst` tell only how much happened. So each of them is taken apart here into the ticks, sends and
arrivals of which it is made (docs/SCRIPTS.md), and each frame is asked for by `show`. The script that comes of it is run
whole, and its answers are compared with those of the script itself: a trace that differs from the report is an error. `link`
can't be taken apart; of its frames the trace knows that they arrived, and not with what answer.
"""

import os
import pathlib
import subprocess
import sys
from typing import NamedTuple

import dissecting

# Where the proved program stands: in a release, or in a checkout.
TOP = pathlib.Path(__file__).resolve().parent.parent
PROGRAMS = (TOP / "program" / "tipc_sim", TOP / "crates" / "tipc_sim" / "out" / "tipc_sim")
SECONDS = 60
MOST_ARRIVALS = 20_000


class CannotTrace(Exception):
    """The script isn't run to its end, makes too many frames, or the trace isn't that of its report."""


class Line(NamedTuple):
    """A line of the script with its answer, which begins with no number."""

    number: int
    text: str
    answer: str


class Frame(NamedTuple):
    """A frame that was sent: the bearer, its place in that bearer's air from 0, its sender, the node that it is for (0: all),
    its bytes, what the program tells of them, and the deed that sent it."""

    bearer: int
    place: int
    sender: int
    receiver: int
    data: bytes
    told: dissecting.Told
    deed: int

    def name(self) -> str:
        return self.told.name()

    def is_for(self, node: int) -> bool:
        return node != self.sender if self.receiver == 0 else node == self.receiver

    def way(self) -> str:
        return f"{self.sender} to {self.receiver or 'all'} on {self.bearer}, {self.name()}"


class Deed(NamedTuple):
    """A part of a line of the script: the line's number, what is asked for, and the place of the frame that it lets
    arrive, where it does."""

    line: int
    text: str
    bearer: int = 0
    place: int = -1


class Arrival(NamedTuple):
    """A frame arrives at a node: the line, the deed, and the answer, or nothing where the line doesn't tell it."""

    line: int
    deed: int
    node: int
    frame: Frame
    answer: str


class Trace(NamedTuple):
    lines: list
    deeds: list
    frames: list
    arrivals: list

    def nodes(self) -> list:
        """The numbers of the nodes, in the order of their making."""
        return [int(line.text.split()[1]) for line in self.lines if line.text.startswith("node ")]

    def lost(self) -> list:
        """The frames that never arrive."""
        there = {(arrival.frame.bearer, arrival.frame.place) for arrival in self.arrivals}
        return [frame for frame in self.frames if (frame.bearer, frame.place) not in there]


def own_program() -> str:
    """The proved program; nothing where it isn't there."""
    return next((str(path) for path in PROGRAMS if os.access(path, os.X_OK)), "")


def run(program: str, lines: list) -> list:
    """The answers of a script's lines; an error where it isn't run to its end."""
    script = "".join(f"{line}\n" for line in lines).encode("utf-8", "surrogateescape")
    ended = subprocess.run([program, "run"], input=script, capture_output=True, timeout=SECONDS, check=False)
    report = ended.stdout.decode("ascii", "replace").splitlines()
    if ended.returncode != 0:
        raise CannotTrace(f"status {ended.returncode}: {report[-1] if report else 'nothing was printed'}")
    return [line.partition(" ")[2] for line in report]


class Tracer:
    """Takes a script apart, line after line. `deeds` is the script that comes of it."""

    def __init__(self, program: str):
        self.program = program
        self.deeds = []
        self.arrivals = 0
        # By bearer: where the last mark is, and where the next pump begins.
        self.marks = [0, 0]
        self.pumped = [0, 0]
        self.nodes = []

    def ask(self, questions: list) -> list:
        """The answers of lines that are no events, behind all deeds so far."""
        answers = run(self.program, [deed.text for deed in self.deeds] + questions)
        return answers[len(self.deeds) :]

    def ends(self) -> list:
        """How many frames each bearer's air has."""
        answers = self.ask(["air 0", "air 1"])
        return [mark + int(answer.split()[1]) for mark, answer in zip(self.marks, answers)]

    def last_answer(self) -> str:
        return run(self.program, [deed.text for deed in self.deeds])[-1]

    def receivers(self, sender: str, receiver: str) -> list:
        """The nodes that a frame is for, in order, as `show` names its sender and whom it is for."""
        return [node for node in sorted(self.nodes) if node != int(sender)] if receiver == "all" else [int(receiver)]

    def arrive(self, line: int, bearer: int, first: int, end: int):
        """The frames of these places arrive, in order, each at every node that it is for."""
        places = range(first, end)
        shown = self.ask([f"show {bearer} {place - self.marks[bearer]}" for place in places])
        for place, answer in zip(places, shown):
            for node in self.receivers(*answer.split()[:2]):
                text = f"arrive {node} {bearer} {place - self.marks[bearer]}"
                self.deeds.append(Deed(line, text, bearer, place))
                self.arrivals += 1
        if self.arrivals > MOST_ARRIVALS:
            raise CannotTrace(f"more than {MOST_ARRIVALS} frames arrive")

    def pump(self, line: int, bearer: int):
        """The frames from the pump's place on arrive, and those that are sent meanwhile."""
        while self.pumped[bearer] < (end := self.ends()[bearer]):
            self.arrive(line, bearer, self.pumped[bearer], end)
            self.pumped[bearer] = end

    def settle(self, line: int, rounds: int):
        """Rounds: each node ticks, and the frames arrive that are in the air then and didn't arrive in a round before. The
        load is asked for last."""
        places = self.ends()
        for _ in range(rounds):
            self.deeds += [Deed(line, f"tick {node}") for node in sorted(self.nodes)]
            ends = self.ends()
            self.arrive(line, 0, places[0], ends[0])
            self.arrive(line, 1, places[1], ends[1])
            places = ends
        self.deeds.append(Deed(line, "settle 0"))

    def burst(self, line: int, words: list):
        """Turns: a message is sent, frames arrive by both pumps, and one is received."""
        node, port, peer, peer_port, turns, body = words
        for _ in range(int(turns)):
            self.deeds.append(Deed(line, f"send {node} {port} port {peer} {peer_port} low {body}"))
            if self.last_answer() != "sent":
                return
            self.pump(line, 0)
            self.pump(line, 1)
            self.deeds.append(Deed(line, f"receive {peer} {peer_port}"))
            if not self.last_answer().startswith("got"):
                return

    def take(self, number: int, text: str):
        """One line of the script."""
        words = text.split(" ")
        if words[0] == "pump":
            self.pump(number, int(words[1]))
        elif words[0] == "settle":
            self.settle(number, int(words[1]))
        elif words[0] == "burst":
            self.burst(number, words[1:])
        else:
            self.take_plain(number, text, words)

    def take_plain(self, number: int, text: str, words: list):
        """A line that stays as it is."""
        if words[0] == "mark":
            self.marks = self.ends()
            self.pumped = list(self.marks)
        if words[0] == "node":
            self.nodes.append(int(words[1]))
        bearer, place = 0, -1
        if words[0] == "arrive":
            bearer = int(words[2])
            place = self.marks[bearer] + int(words[3])
        self.deeds.append(Deed(number, text, bearer, place))


def counted(program: str, deeds: list) -> list:
    """By deed: the mark of each bearer, and how many frames its air has behind the deed."""
    asked = [text for deed in deeds for text in (deed.text, "air 0", "air 1")]
    answers, marks, counts = run(program, asked), [0, 0], []
    ends = [0, 0]
    for place, deed in enumerate(deeds):
        if deed.text == "mark":
            marks = list(ends)
        ends = [marks[bearer] + int(answers[3 * place + 1 + bearer].split()[1]) for bearer in (0, 1)]
        counts.append((list(marks), list(ends)))
    return counts


def frames_of(program: str, deeds: list) -> list:
    """All frames, each as `show` tells it behind the deed that sent it."""
    asked, wanted, before = [], [], [0, 0]
    for number, (deed, (marks, ends)) in enumerate(zip(deeds, counted(program, deeds))):
        asked.append(deed.text)
        for bearer in (0, 1):
            for place in range(before[bearer], ends[bearer]):
                wanted.append((len(asked), bearer, place, number))
                asked.append(f"show {bearer} {place - marks[bearer]}")
        before = ends
    answers, frames = run(program, asked), []
    shown = [answers[asked_at].split() for asked_at, *_ in wanted]
    try:
        told = dissecting.dissect(program, [text for _, _, text in shown])
    except dissecting.NotDissected as error:
        raise CannotTrace(str(error)) from error
    for (_, bearer, place, number), (sender, receiver, digits), text in zip(wanted, shown, told):
        to = 0 if receiver == "all" else int(receiver)
        frames.append(Frame(bearer, place, int(sender), to, bytes.fromhex(digits), text, number))
    return frames


def linked(deed: Deed, number: int, frames: list) -> list:
    """The arrivals of a line `link`: what was sent in it on its bearer, at the one of its two nodes that it is for."""
    words = deed.text.split(" ")
    ends, bearer = sorted({int(words[1]), int(words[2])}), int(words[3])
    sent = [frame for frame in frames if frame.deed == number and frame.bearer == bearer]
    return [Arrival(deed.line, number, node, frame, "") for frame in sent for node in ends if frame.is_for(node)]


def arrivals_of(deeds: list, answers: list, frames: list) -> list:
    """All arrivals, in order."""
    by_place = {(frame.bearer, frame.place): frame for frame in frames}
    arrivals = []
    for number, (deed, answer) in enumerate(zip(deeds, answers)):
        if deed.text.startswith("link "):
            arrivals += linked(deed, number, frames)
        elif deed.place >= 0 and answer != "no-frame":
            node = int(deed.text.split(" ")[1])
            arrivals.append(Arrival(deed.line, number, node, by_place[deed.bearer, deed.place], answer))
    return arrivals


def answer_of(text: str, parts: list) -> str:
    """The answer of a line by those of its deeds, each of which is a pair of a deed and its answer."""
    word = text.split(" ")[0]
    if word == "pump":
        return f"pumped {len(parts)}"
    if word == "burst":
        return f"moved {sum(answer.startswith('got') for deed, answer in parts if deed.text.startswith('receive'))}"
    return parts[-1][1]


def trace(program: str, script: str) -> Trace:
    """The trace of a script, which is that of its report."""
    texts = script.split("\n")[:-1] if script.endswith("\n") else script.split("\n")
    report, tracer = run(program, texts), Tracer(program)
    for number, text in enumerate(texts, 1):
        tracer.take(number, text)
    deeds = tracer.deeds
    answers = run(program, [deed.text for deed in deeds])
    parts = {number: [] for number in range(1, len(texts) + 1)}
    for deed, answer in zip(deeds, answers):
        parts[deed.line].append((deed, answer))
    for number, text in enumerate(texts, 1):
        told = answer_of(text, parts[number])
        if told != report[number - 1]:
            raise CannotTrace(f"line {number}: the trace has {told!r}, the report {report[number - 1]!r}")
    frames = frames_of(program, deeds)
    lines = [Line(number, text, answer) for number, (text, answer) in enumerate(zip(texts, report), 1)]
    return Trace(lines, deeds, frames, arrivals_of(deeds, answers, frames))


def main(words: list) -> int:
    if len(words) != 2:
        print(__doc__, file=sys.stderr)
        return 1
    try:
        told = trace(words[0], pathlib.Path(words[1]).read_bytes().decode("utf-8", "surrogateescape"))
    except (CannotTrace, OSError) as error:
        print(f"tracing.py: {error}", file=sys.stderr)
        return 2
    for arrival in told.arrivals:
        frame = arrival.frame
        where = "" if frame.receiver else f" at {arrival.node}"
        print(f"{arrival.line}: {frame.way()}{where}: {arrival.answer or 'arrives'}")
    for frame in told.lost():
        print(f"{told.deeds[frame.deed].line}: {frame.way()}: never arrives")
    return 0


if __name__ == "__main__":
    sys.exit(main(sys.argv[1:]))
