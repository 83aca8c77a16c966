#!/usr/bin/env python3
"""A node has 256 subscriptions at once, of those that timed out too; a cancelled one makes room, and its number isn't used again."""

import sys

MOST = 256
ANSWERS = [("node 1", "ok")]
ANSWERS += [("subscribe 1 100 0 9 1 ports", f"sub {number}") for number in range(1, MOST + 1)]
ANSWERS += [("subscribe 1 100 0 9 1 ports", "full 256"), ("subscribe 1 100 9 0 1 ports", "bad-range"), ("event 1 999", "unknown"), ("tick 1", "ok")]
ANSWERS += [("event 1 256", "timeout 0 9 0:0"), ("event 1 256", "none"), ("subscribe 1 100 0 9 1 service", "full 256")]
ANSWERS += [("cancel 1 7", "ok"), ("cancel 1 7", "unknown"), ("subscribe 1 100 0 9 1 service", "sub 257"), ("subscribe 1 100 0 9 1 ports", "full 256")]
SCRIPT = "".join(f"{line}\n" for line, _ in ANSWERS)
REPORT = "".join(f"{number} {answer}\n" for number, (_, answer) in enumerate(ANSWERS, 1))

if sys.argv[1] == "script":
    sys.stdout.write(SCRIPT)
else:
    sys.stdout.write(REPORT)
