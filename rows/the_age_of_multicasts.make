#!/usr/bin/env python3
"""A broadcast frame may arrive until 30,000 more packets were numbered by its sender, and not after 30,001.

Node 1 sends to node 2. After each 16 packets node 2 says what it took, so 50 packets that are in flight and 50 that wait go over whole. Behind the
first 100 packets 4 are still in flight, and each further 96 leave as many.
"""

import sys

MOST = 30_000
FIRST, NEXT = 99, 96
NEXTS, LAST = divmod(MOST - FIRST, NEXT)
SAID = 6  # what node 2 says to 96 packets, or to the first 100
SAID_AT_LAST = (4 + LAST) // 16
SEND = "send 1 1 cast 200 6 7 low =x"


def lines() -> list:
    """Each line with its answer."""
    made = [("node 1", "ok"), ("node 2", "ok"), ("link 1 2 0", "up"), ("socket 1", "socket 1"), ("socket 2", "socket 1")]
    made += [("publish 2 1 200 0 9 cluster 1", "ok"), ("settle 8", "quiet"), ("mark", "ok")]
    made += [(SEND, "sent"), ("pump 0", "pumped 1")]
    made += [(f"repeat {FIRST} {SEND}", f"times {FIRST} sent"), ("pump 0", f"pumped {FIRST + SAID}")]
    made += [(f"repeat {NEXT} {SEND}", f"times {NEXT} sent"), ("pump 0", f"pumped {NEXT + SAID}")] * NEXTS
    made += [(f"repeat {LAST} {SEND}", f"times {LAST} sent"), ("pump 0", f"pumped {LAST + SAID_AT_LAST}")]
    made += [("arrive 2 0 0", "ignored old"), (SEND, "sent"), ("arrive 2 0 0", f"too-old {MOST + 1}"), ("drain 2 1", "drained 128")]
    return made


if sys.argv[1] == "script":
    print("\n".join(line for line, _ in lines()))
else:
    print("\n".join(f"{number} {answer}" for number, (_, answer) in enumerate(lines(), 1)))
