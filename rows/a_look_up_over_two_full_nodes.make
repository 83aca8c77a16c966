#!/usr/bin/env python3
"""A node knows 1,025 publications, more than one node may have: a look-up finds all of them, and a subscription tells of each."""

import sys

MOST = 1_024
BOTH = [(1, key) for key in range(MOST)] + [(2, 7)]

LINES = [("# More publications than one node may have.", "-")]
LINES += [(f"node {n}", "ok") for n in (1, 2, 3)] + [(f"socket {n}", "socket 1") for n in (1, 2, 3)]
LINES += [(f"publish {n} 1 100 0 9 cluster {key}", "ok") for n, key in BOTH]
LINES += [("link 1 3 0", "up"), ("link 2 3 0", "up"), ("settle 12", "quiet")]
LINES += [("send 3 1 name 100 5 low =a", "sent 1:1"), ("send 3 1 name 100 10 low =b", "no-name")]
LINES += [("subscribe 3 100 5 6 4294967295 ports", "sub 1")]
LINES += [("event 3 1", f"published 5 6 {node}:1") for node, _ in BOTH]
LINES += [("event 3 1", "none"), ("cut 2 0", "ok"), ("settle 12", "quiet")]
LINES += [("event 3 1", "withdrawn 5 6 2:1"), ("event 3 1", "none")]

if sys.argv[1] == "script":
    print("\n".join(line for line, _ in LINES))
else:
    print("\n".join(f"{number} {answer}" for number, (_, answer) in enumerate(LINES, 1)))
