#!/usr/bin/env python3
"""A packet of 70 items, of which it has at most so many, has a line for each; one of 71 is none."""

import sys

ENVELOPE = "00000000000000000000000000000000"
BEHIND = "00000000" "00000001" "01001001" + "00000000" * 6
# Word 0 has the size in its low bits: 40 bytes of header, and 20 for each item.
PACKETS = [f"{0x57400000 + 40 + 20 * count:08x}{BEHIND}" for count in (70, 71)]
ITEMS = ["".join(f"{5 * index + word:08x}" for word in range(5)) for index in range(71)]
LINES = "".join(f" item {','.join(str(5 * index + word) for word in range(5))}\n" for index in range(70))
REPORT = f"""\
1 frame 1456
 envelope-first 0
 envelope-second 0
 user 11
 words 10
 non-sequenced 0
 destination-droppable 0
 source-droppable 0
 size 1440
 type 0
 broadcast-ack 0
 ack 0
 sequence 1
 previous 1.1.1
{LINES}2 fault 7 Reserved
"""

if sys.argv[1] == "script":
    sys.stdout.write(f"{ENVELOPE}{PACKETS[0]}{''.join(ITEMS[:70])}\n{ENVELOPE}{PACKETS[1]}{''.join(ITEMS)}\n")
else:
    sys.stdout.write(REPORT)
