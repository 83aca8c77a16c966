#!/usr/bin/env python3
"""A line of 16,777,216 digits is one frame, whose packet begins with version 0."""

import sys

BYTES = 16_777_216

if sys.argv[1] == "script":
    sys.stdout.write("0" * BYTES)
else:
    sys.stdout.write("1 fault 2 Version\n")
