#!/usr/bin/env python3
"""Broadcast numbers begin again at 0 behind 65,535, and packets are taken on both sides of that place.

Node 1 sends to node 2. After each 16 packets node 2 says what it took, so 50 packets that are in flight and 50 that wait go over whole. Behind the
first 100 packets 4 are still in flight, and each further 96 leave as many. The last packet is the 65,537th, and has the number of the first.
"""

import sys

MOST = 65_535
FIRST, NEXT = 99, 96
NEXTS, LAST = divmod(MOST - FIRST, NEXT)
SAID = 6  # what node 2 says to 96 packets, or to the first 100
SAID_AT_LAST = (4 + LAST) // 16
SEND = "send 1 1 cast 200 6 7 low =x"


def lines() -> list:
    """Each line with its answer."""
    made = [("node 1", "ok"), ("node 2", "ok"), ("link 1 2 0", "up"), ("socket 1", "socket 1"), ("socket 2", "socket 1")]
    made += [("publish 2 1 200 0 9 cluster 1", "ok"), ("settle 8", "quiet"), ("mark", "ok")]
    made += [(SEND, "sent"), ("pump 0", "pumped 1")]
    made += [(f"repeat {FIRST} {SEND}", f"times {FIRST} sent"), ("pump 0", f"pumped {FIRST + SAID}")]
    made += [(f"repeat {NEXT} {SEND}", f"times {NEXT} sent"), ("pump 0", f"pumped {NEXT + SAID}")] * NEXTS
    made += [(f"repeat {LAST} {SEND}", f"times {LAST} sent"), ("pump 0", f"pumped {LAST + SAID_AT_LAST}"), ("drain 2 1", "drained 128")]
    made += [("mark", "ok"), ("send 1 1 cast 200 6 7 low =behind", "sent"), ("arrive 2 0 0", "took 1"), ("arrive 2 0 0", "ignored old")]
    made += [("receive 2 1", "got 1:1 0 6 behind"), ("receive 2 1", "empty")]
    return made


if sys.argv[1] == "script":
    print("\n".join(line for line, _ in lines()))
else:
    print("\n".join(f"{number} {answer}" for number, (_, answer) in enumerate(lines(), 1)))
