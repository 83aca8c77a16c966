#!/usr/bin/env python3
"""A node makes 256 sockets in a boot; a restart gives it 256 more."""

import sys

MOST, BASE = 256, 1_048_576
ANSWERS = [("node 1", "ok")]
ANSWERS += [("socket 1", f"socket {k}") for k in range(1, MOST + 1)] + [("socket 1", "full 256"), ("receive 1 256", "empty"), ("receive 1 257", "no-socket")]
ANSWERS += [("restart 1", "ok")]
ANSWERS += [("socket 1", f"socket {BASE + k}") for k in range(1, MOST + 1)] + [("socket 1", "full 256")]
SCRIPT = "".join(f"{line}\n" for line, _ in ANSWERS)
REPORT = "".join(f"{number} {answer}\n" for number, (_, answer) in enumerate(ANSWERS, 1))

if sys.argv[1] == "script":
    sys.stdout.write(SCRIPT)
else:
    sys.stdout.write(REPORT)
