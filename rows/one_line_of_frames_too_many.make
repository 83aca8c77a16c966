#!/usr/bin/env python3
"""Of 65,537 lines none is told, the last of which lacks its newline."""

import sys

LINES = 65_537

if sys.argv[1] == "script":
    sys.stdout.write("00\n" * (LINES - 1) + "0g")
else:
    sys.stdout.write("0 limit lines 65536\n")
