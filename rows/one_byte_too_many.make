#!/usr/bin/env python3
"""Of a script of 16,777,217 bytes nothing is done."""

import sys

SCRIPT = "node 1\n" + "#" * (16_777_217 - 7)
REPORT = "0 limit bytes 16777216\n"

if sys.argv[1] == "script":
    sys.stdout.write(SCRIPT)
else:
    sys.stdout.write(REPORT)
