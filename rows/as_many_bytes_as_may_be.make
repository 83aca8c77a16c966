#!/usr/bin/env python3
"""A script of 16,777,216 bytes is done."""

import sys

BYTES = 16_777_216
SCRIPT = "node 1\n" + "#" * (BYTES - 7)
REPORT = "1 ok\n2 -\n"

if sys.argv[1] == "script":
    sys.stdout.write(SCRIPT)
else:
    sys.stdout.write(REPORT)
