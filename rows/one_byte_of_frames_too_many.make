#!/usr/bin/env python3
"""Of 16,777,217 bytes nothing is dissected."""

import sys

BYTES = 16_777_217

if sys.argv[1] == "script":
    sys.stdout.write("00\n" + "0" * (BYTES - 3))
else:
    sys.stdout.write("0 limit bytes 16777216\n")
