#!/usr/bin/env python3
"""Of a script that has too many bytes and too many lines the bytes are told."""

import sys

SCRIPT = "\n" * 16_777_217
REPORT = "0 limit bytes 16777216\n"

if sys.argv[1] == "script":
    sys.stdout.write(SCRIPT)
else:
    sys.stdout.write(REPORT)
