#!/usr/bin/env python3
"""A node with two links to each of 31 others: a tick sends 62 frames in one event, and each arrives."""

import sys

PEERS = range(2, 33)

LINES = [("# More frames in one event than a link may have unacknowledged.", "-")]
LINES += [(f"node {n}", "ok") for n in range(1, 33)]
LINES += [(f"link 1 {n} {bearer}", "up") for bearer in (0, 1) for n in PEERS]
LINES += [("settle 12", "quiet"), ("mark", "ok"), ("tick 1", "ok")]
LINES += [("pump 0", "pumped 31"), ("pump 1", "pumped 31")]
LINES += [("links 1", "links" + "".join(f" {n}:WW" for n in PEERS))]

if sys.argv[1] == "script":
    print("\n".join(line for line, _ in LINES))
else:
    print("\n".join(f"{number} {answer}" for number, (_, answer) in enumerate(LINES, 1)))
