#!/usr/bin/env python3
"""Of a script of 65,537 lines nothing is done."""

import sys

SCRIPT = "node 1\n" + "\n" * 65_536
REPORT = "0 limit lines 65536\n"

if sys.argv[1] == "script":
    sys.stdout.write(SCRIPT)
else:
    sys.stdout.write(REPORT)
