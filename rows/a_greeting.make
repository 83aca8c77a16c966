#!/usr/bin/env python3
"""A contact begins with all that is published: 141 publications in three messages, and none of node scope. It ends with them, and begins with
them again."""

import sys

COUNT = 141
PUBLISHED = [(100 + key % 3, key, key + 5, ("zone", "cluster")[key % 2], key) for key in range(COUNT)]
TABLE = "table" + "".join(f" {kind},{lower},{upper},1:1,{key}" for kind, lower, upper, _, key in sorted(PUBLISHED, key=lambda p: (p[0], p[1], p[2], p[4])))

LINES = [("# A contact begins with all that is published.", "-"), ("node 1", "ok"), ("node 2", "ok"), ("socket 1", "socket 1")]
LINES += [(f"publish 1 1 {kind} {lower} {upper} {scope} {key}", "ok") for kind, lower, upper, scope, key in PUBLISHED]
LINES += [("publish 1 1 100 0 9 node 1000", "ok"), ("link 1 2 0", "up"), ("settle 12", "quiet"), ("table 1", TABLE), ("table 2", TABLE),
          ("flow 1 2", "accepted 3 delivered 3"), ("flow 2 1", "accepted 0 delivered 0"),
          ("cut 2 0", "ok"), ("table 2", "table"), ("mend 2 0", "ok"), ("settle 12", "quiet"), ("table 2", TABLE),
          ("flow 1 2", "accepted 3 delivered 3"), ("mark", "ok"), ("withdraw 1 1 70", "ok"), ("pump 0", "pumped 1"),
          ("table 2", TABLE.replace(" 101,70,75,1:1,70", ""))]

if sys.argv[1] == "script":
    print("\n".join(line for line, _ in LINES))
else:
    print("\n".join(f"{number} {answer}" for number, (_, answer) in enumerate(LINES, 1)))
