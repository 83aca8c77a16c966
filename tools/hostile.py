#!/usr/bin/env python3
"""Frames that no honest network would bring, as far as a script can bring them; and clusters that run long.

hostile.py print KIND SEED LINES
    Prints a script: some nodes find each other and talk, and then so many lines of one of these kinds. Behind them all bearers are
    mended, and each node sends a few messages to each other one. The same seed gives the same script.

    old     two to four nodes. Frames that were ever sent arrive at any node, on any bearer, again and again, from ended contacts
            and past boots too, while nodes restart, bearers are cut and messages are sent
    busy    eight nodes that publish, withdraw, send by name and by port and multicast, while frames are lost and repeated,
            bearers cut and nodes restarted
    many    32 nodes likewise; at the end they send nothing, since the rounds for that are more frames than a script may have

hostile.py try PROGRAM KIND FIRST LAST LINES
    Runs PROGRAM (a built tipc_sim) on the script of each seed from FIRST to LAST and looks at its report: the program ends with
    status 0 and answers each line; at the end the nodes are quiet, what they send each other comes, all of it, their tables are the
    same, and on each way all that was accepted in the present contact was delivered, multicasts aside. A script that has more events or frames than may
    be is no fault, but counted by itself.

hostile.py bytes NODES FRAMES
    A script can't change the bytes of a frame, so this needs no program: it runs the tests of tipc_node_tests by `rt try`, which
    proves nothing, in a copy of the repository. There so many nodes hear so many frames each, at most 100,000, which two nodes sent
    each other and which were changed at random; each frame must be one step of its node. It ends with the status of `rt try`.
"""

import random
import re
import shutil
import subprocess
import sys
import tempfile
import time
from pathlib import Path

TOP = Path(__file__).resolve().parent.parent
TESTS = "crates/tipc_node_tests"
MOST_SECONDS = "3600"
BOOTS_BASE = 1_048_576
SERVICE = 300
SENT_AT_END = 3
LIMIT_REACHED = 6

# What a kind of script is: from and to how many nodes; rounds at the begin; rounds at the end, after which what is on its way behind so
# many lines has come, and then what each node sent each other one (where they are 0, it sends nothing); how far back a frame may be that
# arrives; what share of the messages goes to all (a small one among 32 nodes: each that lacks a packet asks for it, and it comes to all
# of them again); how often each line is drawn.
KINDS = {
    "old": ((2, 4), (12, 800, 400), (8, 60, 200, 1_000), 1 / 3,
            {"arrive": 120, "send": 30, "tick": 14, "pump": 6, "settle": 3, "cut": 3, "mend": 6, "restart": 1, "drain": 6}),
    "busy": ((8, 8), (12, 100, 100), (8, 60, 400), 1 / 3,
             {"arrive": 160, "send": 40, "tick": 6, "pump": 4, "cut": 2, "mend": 6, "restart": 0.3, "drain": 20, "name": 6}),
    "many": ((32, 32), (3, 16, 0), (8, 60, 400), 1 / 100,
             {"arrive": 300, "send": 30, "tick": 0.5, "cut": 0.3, "mend": 0.6, "restart": 0.03, "drain": 10, "name": 0.3}),
}


class TooLong(Exception):
    """A script has more events or frames than may be."""


class Storm:
    """A cluster, and what its lines say."""

    def __init__(self, kind: str, seed: int):
        (least, most), self.rounds, self.back, self.casts, self.kinds = KINDS[kind]
        self.draw = random.Random(seed)
        self.nodes = list(range(1, self.draw.randint(least, most) + 1))
        self.boots = {n: 1 for n in self.nodes}
        self.sockets = {n: 0 for n in self.nodes}
        self.keys = {n: [] for n in self.nodes}
        self.key = 0

    def mended(self) -> list:
        return [f"mend {n} {x}" for n in self.nodes for x in (0, 1)]

    def socket(self, n: int) -> str:
        self.sockets[n] += 1
        return f"socket {n}"

    def port(self, n: int) -> int:
        """The last socket of the present boot, or port 1 of it."""
        return (self.boots[n] - 1) * BOOTS_BASE + max(1, self.sockets[n])

    def publish(self, n: int) -> str:
        self.key += 1
        self.keys[n].append((self.port(n), self.key))
        lower = self.draw.randint(0, 9)
        return f"publish {n} {self.port(n)} {SERVICE} {lower} {lower + self.draw.randint(0, 9)} cluster {self.key}"

    def withdraw(self, n: int) -> str:
        port, key = self.keys[n].pop(self.draw.randrange(len(self.keys[n])))
        return f"withdraw {n} {port} {key}"

    def first_lines(self) -> list:
        lines = [f"node {n}" for n in self.nodes] + self.mended() + [f"settle {self.rounds[0]}"]
        for n in self.nodes:
            lines += [self.socket(n), self.publish(n)]
        return lines + ["mark"]

    def arrive(self, n: int, x: int) -> list:
        """A frame that was sent at any time arrives, once or a few times."""
        place = self.draw.randint(0, self.draw.choice(self.back))
        return [f"arrive {n} {x} {place}"] * self.draw.choice((1, 1, 1, 2, 8))

    def send(self) -> str:
        a, b = self.draw.sample(self.nodes, 2)
        body = self.draw.choice(("=x", "*100", "*1452", "*1500", "*9000"))
        to = self.draw.choice((f"port {b} {self.port(b)}", f"name {SERVICE} {self.draw.randint(0, 18)}"))
        if self.draw.random() < self.casts:
            to = f"cast {SERVICE} 0 9"
        return f"send {a} {self.port(a)} {to} low {body}"

    def restart(self, n: int) -> list:
        self.boots[n] += 1
        self.sockets[n] = 0
        self.keys[n] = []
        return [f"restart {n}", f"mend {n} {self.draw.randint(0, 1)}", self.socket(n), self.publish(n), "mark"]

    def name(self, n: int) -> list:
        many = len(self.keys[n]) > 8 or (self.keys[n] and self.draw.random() < 0.4)
        return [self.withdraw(n) if many else self.publish(n)]

    def line(self) -> list:
        """One more thing that happens, as one line or a few."""
        n, x = self.draw.choice(self.nodes), self.draw.randint(0, 1)
        kind = self.draw.choices(list(self.kinds), list(self.kinds.values()))[0]
        one = {"send": self.send, "settle": lambda: f"settle {self.draw.randint(1, 3)}", "tick": lambda: f"tick {n}",
               "pump": lambda: f"pump {x}", "drain": lambda: f"drain {n} {self.port(n)}",
               "cut": lambda: f"cut {n} {x}", "mend": lambda: f"mend {n} {x}"}
        some = {"arrive": lambda: self.arrive(n, x), "restart": lambda: self.restart(n), "name": lambda: self.name(n)}
        return some[kind]() if kind in some else [one[kind]()]

    def last_messages(self, ways: list) -> list:
        """Each node makes a socket, and sends a few messages to that of each other one."""
        lines = [self.socket(n) for n in self.nodes]
        for a, b in ways:
            lines += [f"send {a} {self.port(a)} port {b} {self.port(b)} low =m"] * SENT_AT_END
        return lines + [f"settle {self.rounds[2]}"] + [f"drain {n} {self.port(n)}" for n in self.nodes]

    def last_lines(self) -> list:
        """All is mended and settles; each node sends a few messages to each other one. What is looked at then."""
        ways = [(a, b) for a in self.nodes for b in self.nodes if a != b]
        lines = self.mended() + [f"settle {self.rounds[1]}"]
        if self.rounds[2]:
            lines += self.last_messages(ways)
        return lines + [f"table {n}" for n in self.nodes] + [f"flow {a} {b}" for a, b in ways]


def script_of(kind: str, seed: int, lines: int) -> tuple:
    """The script of a seed, and how many lines its end has."""
    cluster = Storm(kind, seed)
    script = cluster.first_lines()
    behind = len(script) + lines
    while len(script) < behind:
        script += cluster.line()
    last = cluster.last_lines()
    return script + last, len(last), len(cluster.nodes)


def is_right(line: str, answer: str, nodes: int, tables: set) -> bool:
    """Whether a line of the end is answered as by nodes that go on as before."""
    word = line.split(" ")[0]
    if word == "flow":
        words = answer.split(" ")
        return words[0] == "accepted" and words[1] == words[3]
    if word == "table":
        tables.add(answer)
        return len(tables) == 1
    if word == "socket":
        return answer.startswith("socket ")
    return answer == {"mend": "ok", "settle": "quiet", "send": "sent", "drain": f"drained {SENT_AT_END * (nodes - 1)}"}[word]


def fault(program: str, kind: str, seed: int, lines: int) -> str:
    """What is wrong with the program's report on the script of a seed; empty where nothing is."""
    script, last, nodes = script_of(kind, seed, lines)
    ran = subprocess.run([program, "run"], input="\n".join(script) + "\n", capture_output=True, text=True, check=False)
    report = ran.stdout.splitlines()
    if ran.returncode == LIMIT_REACHED:
        raise TooLong
    if ran.returncode != 0 or len(report) != len(script):
        return f"status {ran.returncode}, {len(report)} answers to {len(script)} lines, the last: {report[-1] if report else ''}"
    tables: set = set()
    for line, numbered in zip(script[-last:], report[-last:]):
        answer = numbered.split(" ", 1)[1]
        if not is_right(line, answer, nodes, tables):
            return f"{line}: {answer}"
    return ""


def try_all(program: str, kind: str, first: int, last: int, lines: int) -> int:
    """Tries all seeds, and tells what is wrong."""
    begin, faults, too_long = time.monotonic(), 0, 0
    for seed in range(first, last + 1):
        try:
            what = fault(program, kind, seed, lines)
        except TooLong:
            too_long += 1
            continue
        if what:
            faults += 1
            print(f"seed {seed}: {what}", flush=True)
    tried = last - first + 1 - too_long
    print(f"{tried} scripts of {kind}, {lines} lines each, {faults} with a fault, {time.monotonic() - begin:.0f} s; {too_long} too long to be run")
    return 1 if faults or not tried else 0


def with_counts(text: str, nodes: int, frames: int) -> str:
    """The text of the tests, with so many nodes that hear so many frames each."""
    for name, count in (("HEARD: u32", frames), ("NODES: u64", nodes)):
        text, found = re.subn(rf"^const {name} = \d+;$", f"const {name} = {count};", text, flags=re.MULTILINE)
        if found != 1:
            sys.exit(f"{TESTS}/src/hostile.rt has no line `const {name} = ..;`")
    return text


def change_bytes(nodes: int, frames: int) -> int:
    """Lets so many nodes hear so many changed frames each, and answers the status of `rt try`."""
    with tempfile.TemporaryDirectory() as room:
        copy = Path(room) / "copy"
        shutil.copytree(TOP, copy, ignore=shutil.ignore_patterns("out", ".git"))
        tests = copy / TESTS / "src" / "hostile.rt"
        tests.write_text(with_counts(tests.read_text(), nodes, frames))
        words = ["rt", "try", "--test", "--steps", "1", "--seconds", MOST_SECONDS]
        return subprocess.run(words, cwd=copy / TESTS, check=False).returncode


def main() -> int:
    words = sys.argv[1:]
    if words[:1] == ["print"] and len(words) == 4 and words[1] in KINDS:
        print("\n".join(script_of(words[1], int(words[2]), int(words[3]))[0]))
        return 0
    if words[:1] == ["try"] and len(words) == 6 and words[2] in KINDS:
        return try_all(words[1], words[2], *map(int, words[3:]))
    if words[:1] == ["bytes"] and len(words) == 3:
        return change_bytes(*map(int, words[1:]))
    print(__doc__.strip(), file=sys.stderr)
    return 2


if __name__ == "__main__":
    sys.exit(main())
