#!/usr/bin/env python3
"""65,536 lines are told, the last under that number."""

import sys

LINES = 65_536

if sys.argv[1] == "script":
    sys.stdout.write("00\n" * LINES)
else:
    sys.stdout.write("".join(f"{number} envelope\n" for number in range(1, LINES + 1)))
