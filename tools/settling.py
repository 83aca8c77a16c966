#!/usr/bin/env python3
"""Lets random poised worlds settle, and looks whether they do within the rounds that are promised.

settling.py PROGRAM FIRST LAST [LINES]
    For each seed from FIRST to LAST, the script `random_script.py SEED LINES poised` (40 lines where none are given) is run by PROGRAM
    (a built tipc_sim) twice. The first run tells the load behind it: the packets that are unacknowledged or wait, and for each two
    nodes what was accepted and isn't delivered (multicasts aside, of whose messages no line tells; so the rounds may be fewer than
    those promised). The second one goes on with `settle r`, where r is 16 and 16 for each of the load. It must answer `quiet`; all
    that nodes in contact accepted for one another must be delivered (multicasts aside), and nodes that are all in contact must hold the same publications.
    Where so many rounds are more events than a script may have, as many are run as fit.

A world counts where the links that were up before the last lines are up behind them, and the others are not: so far a report tells that
it is poised. The last line tells how many worlds counted, how many of them had a load, the greatest one, and what was wrong.
"""

import random
import subprocess
import sys
import time

import random_script

MOST_EVENTS, MOST_FRAMES = 300_000, 100_000
# what is left for the lines before the rounds
SPARE = 8_000
LINES = 40


class Fault(Exception):
    """What a report says that it must not."""


def answers(program: str, script: list) -> list:
    """The answer to each line."""
    ran = subprocess.run([program, "run"], input="\n".join(script) + "\n", capture_output=True, text=True, check=False)
    report = ran.stdout.splitlines()
    if ran.returncode != 0 or len(report) != len(script):
        raise Fault(f"status {ran.returncode}, {len(report)} answers to {len(script)} lines")
    return [line.split(" ", 1)[1] for line in report]


class World:
    """A poised world, as a script of it and what a report of that says."""

    def __init__(self, seed: int, lines: int):
        cluster = random_script.Poised(random.Random(seed))
        self.nodes = cluster.nodes
        self.first = cluster.first_lines()
        self.last = [cluster.line() for _ in range(lines)]
        self.ways = [(a, b) for a in self.nodes for b in self.nodes if a != b]

    def links(self) -> list:
        return [f"links {n}" for n in self.nodes]

    def flows(self) -> list:
        return [f"flow {a} {b}" for a, b in self.ways]

    def load(self, program: str):
        """The load behind the script; None where the world isn't poised."""
        told = answers(program, self.first + self.links() + self.last + self.links() + ["settle 0"] + self.flows())
        many = len(self.nodes)
        before = told[len(self.first):][:many]
        after = told[len(self.first) + many + len(self.last):][:many]
        if [ups(a) for a in before] != [ups(a) for a in after]:
            return None
        flows = told[-len(self.ways):]
        return packets(told[-len(self.ways) - 1]) + sum(accepted - delivered for accepted, delivered in map(counts, flows))

    def rounds_that_fit(self) -> int:
        """In a round each node ticks, and sends at most a frame or two to each other one on each bearer, and each of them is heard."""
        many = len(self.nodes)
        frames = 4 * many * (many - 1)
        return min((MOST_EVENTS - SPARE) // (many + frames), (MOST_FRAMES - SPARE) // frames)

    def settles(self, program: str, rounds: int) -> None:
        """Looks at the world behind so many rounds."""
        tables = [f"table {n}" for n in self.nodes]
        told = answers(program, self.first + self.last + [f"settle {rounds}"] + self.links() + self.flows() + tables)
        told = told[len(self.first) + len(self.last):]
        if told[0] != "quiet":
            raise Fault(f"settle {rounds}: {told[0]}")
        links, rest = told[1:][:len(self.nodes)], told[1 + len(self.nodes):]
        for line, answer in zip(self.flows(), rest):
            accepted, delivered = counts(answer)
            if accepted != delivered:
                raise Fault(f"{line}: {answer}")
        if all(len(ups(answer)) == len(self.nodes) - 1 for answer in links) and len(set(rest[len(self.ways):])) != 1:
            raise Fault("tables differ")


def ups(answer: str) -> list:
    """The peers to which a link is up, each with the letters of its links, in which all that isn't up looks the same."""
    ends = [word.split(":") for word in answer.split(" ")[1:]]
    return [(peer, [letter == "W" for letter in letters]) for peer, letters in ends if "W" in letters]


def packets(answer: str) -> int:
    """How many packets an answer to `settle` tells."""
    return 0 if answer == "quiet" else sum(map(int, answer.split(" ")[1:]))


def counts(answer: str) -> tuple:
    """What an answer to `flow` tells as accepted and delivered."""
    words = answer.split(" ")
    return (0, 0) if answer == "no-contact" else (int(words[1]), int(words[3]))


def try_all(program: str, first: int, last: int, lines: int) -> int:
    begin, faults, counted, loaded, most, short = time.monotonic(), 0, 0, 0, 0, 0
    for seed in range(first, last + 1):
        world = World(seed, lines)
        try:
            load = world.load(program)
            if load is None:
                continue
            bound, fit = 16 + 16 * load, world.rounds_that_fit()
            world.settles(program, min(bound, fit))
            counted, loaded, most, short = counted + 1, loaded + (load > 0), max(most, load), short + (bound > fit)
        except Fault as what:
            faults += 1
            print(f"seed {seed}: {what}", flush=True)
    print(f"{last - first + 1} scripts, {counted} poised, {loaded} with a load, at most {most}; {short} by fewer rounds than promised; "
          f"{faults} with a fault, {time.monotonic() - begin:.0f} s")
    return 1 if faults or not loaded else 0


def main() -> int:
    words = sys.argv[1:]
    if len(words) not in (3, 4) or not all(word.isdigit() for word in words[1:]):
        print(__doc__.strip(), file=sys.stderr)
        return 2
    return try_all(words[0], *map(int, words[1:3]), int(words[3]) if words[3:] else LINES)


if __name__ == "__main__":
    sys.exit(main())
