#!/usr/bin/env python3
"""A node has 1,024 publications at once; a withdrawal makes room for one more."""

import sys

MOST = 1_024
ANSWERS = [("node 1", "ok"), ("socket 1", "socket 1")]
ANSWERS += [(f"publish 1 1 100 {k} {k} node {k}", "ok") for k in range(MOST)]
ANSWERS += [("publish 1 1 100 0 9 node 1024", "full 1024"), ("publish 1 1 100 0 9 node 5", "duplicate 5")]
ANSWERS += [("withdraw 1 1 5", "ok"), ("send 1 1 name 100 5 low =x", "no-name"), ("publish 1 1 100 5 5 node 1024", "ok")]
ANSWERS += [("publish 1 1 100 0 9 node 5", "full 1024"), ("send 1 1 name 100 5 low =x", "sent 1:1")]
SCRIPT = "".join(f"{line}\n" for line, _ in ANSWERS)
REPORT = "".join(f"{number} {answer}\n" for number, (_, answer) in enumerate(ANSWERS, 1))

if sys.argv[1] == "script":
    sys.stdout.write(SCRIPT)
else:
    sys.stdout.write(REPORT)
