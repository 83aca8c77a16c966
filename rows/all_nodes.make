#!/usr/bin/env python3
"""32 nodes that find each other, a link between each two of them, and a message over each link in each direction."""

import sys

NODES = range(1, 33)
BOTH_WAYS = [(a, b) for a in NODES for b in NODES if a != b]


def links_of(n: int) -> str:
    return "links" + "".join(f" {m}:W-" for m in NODES if m != n)


def lines() -> list:
    """Each line with its answer."""
    made = [(f"node {n}", "ok") for n in NODES]
    made += [(f"socket {n}", "socket 1") for n in NODES]
    made += [(f"mend {n} 0", "ok") for n in NODES]
    made += [("settle 12", "quiet")]
    made += [(f"links {n}", links_of(n)) for n in NODES]
    made += [("mark", "ok")]
    made += [(f"send {a} 1 port {b} 1 low ={a}to{b}", "sent") for a, b in BOTH_WAYS]
    made += [("pump 0", f"pumped {len(BOTH_WAYS)}")]
    for b in NODES:
        for a in NODES:
            if a != b:
                text = f"{a}to{b}"
                made += [(f"receive {b} 1", f"got {a}:1 0 {len(text)} {text}"), (f"flow {a} {b}", "accepted 1 delivered 1")]
        made += [(f"receive {b} 1", "empty")]
    return made


if sys.argv[1] == "script":
    print("\n".join(line for line, _ in lines()))
else:
    print("\n".join(f"{number} {answer}" for number, (_, answer) in enumerate(lines(), 1)))
