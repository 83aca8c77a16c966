#!/usr/bin/env python3
"""A packet has at most 131,071 bytes, which is what its size field can tell: a frame of 131,087 is told whole.

It is a tunnel packet of 48 bytes, in which 131,023 stand that are no packet.
"""

import sys

INSIDE = "ab" * 131_023
FRAME = (
    "00000001000000020000000300000004"
    "5541ffff200000000000000101001001"
    "00010002000000000000000000000000"
    "00000000000000000000000100000001"
)
REPORT = f"""\
1 frame 131087
 envelope-first 4294967298
 envelope-second 12884901892
 user 10
 words 10
 non-sequenced 0
 destination-droppable 0
 source-droppable 0
 size 131071
 type 1
 broadcast-ack 0
 ack 0
 sequence 1
 previous 1.1.1
 count 1
 inner-number 2
 old-bearer 0
 old-epoch 4294967297
 inner bad {INSIDE}
"""

if sys.argv[1] == "script":
    sys.stdout.write(FRAME + INSIDE + "\n")
else:
    sys.stdout.write(REPORT)
