#!/usr/bin/env python3
"""A script of 65,536 lines is done, also where the last line has no newline."""

import sys

LINES = 65_536
SCRIPT = "\n" * (LINES - 1) + "#"
REPORT = "".join(f"{number} -\n" for number in range(1, LINES + 1))

if sys.argv[1] == "script":
    sys.stdout.write(SCRIPT)
else:
    sys.stdout.write(REPORT)
