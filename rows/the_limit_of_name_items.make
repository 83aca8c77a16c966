#!/usr/bin/env python3
"""Publications and withdrawals that a peer doesn't take: 50 items are in flight and 999 bundles of 23 items wait, and one bundle more begins
with the last call that is done; then each is refused of which the peer would have to be told: to publish, to withdraw and to close."""

import sys

IN_FLIGHT = 50
ITEMS_IN_A_BUNDLE = (1452 - 40) // 60
CALLS = IN_FLIGHT + 999 * ITEMS_IN_A_BUNDLE + 1

LINES = [("# " + __doc__.split(":")[0] + ".", "-"), ("node 1", "ok"), ("node 2", "ok"), ("link 1 2 0", "up"), ("socket 1", "socket 1")]
LINES += [("publish 1 1 100 0 9 cluster 8", "ok")]
for call in range(CALLS - 1):
    LINES += [(("publish 1 1 100 0 9 cluster 7", "withdraw 1 1 7")[call % 2], "ok")]
LINES += [(line, "names-congested 2 1000") for line in ("publish 1 1 100 0 9 cluster 9", "withdraw 1 1 8", "close 1 1")]
LINES += [("publish 1 1 100 0 9 node 9", "ok"), ("withdraw 1 1 9", "ok"), ("table 1", "table 100,0,9,1:1,7 100,0,9,1:1,8"), ("table 2", "table")]

if sys.argv[1] == "script":
    print("\n".join(line for line, _ in LINES))
else:
    print("\n".join(f"{number} {answer}" for number, (_, answer) in enumerate(LINES, 1)))
