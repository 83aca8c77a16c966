#!/usr/bin/env python3
"""66,000 bytes may follow a header of payload, and 66,001 may not. So long a frame comes over no bearer."""

import sys

MOST = 66_000
ENVELOPE = "00000000000000000000000000000000"
# Word 0 has the size in its low bits: 24 bytes of header, and what follows.
SHORT, LONG = f"{0x40C00000 + 24 + MOST:08x}", f"{0x40C00000 + 25 + MOST:08x}"
BEHIND = "00000000" "00000001" "01001001" "00000001" "00000001"
REPORT = f"""\
1 frame 66040
 envelope-first 0
 envelope-second 0
 user 0
 words 6
 non-sequenced 0
 destination-droppable 0
 source-droppable 0
 size 66024
 type 0
 code 0
 reroute 0
 scope 0
 flow 0
 broadcast-ack 0
 ack 0
 sequence 1
 previous 1.1.1
 origin-port 1
 destination-port 1
 rest {"5a" * MOST}
2 fault 4 Size
"""

if sys.argv[1] == "script":
    sys.stdout.write(f"{ENVELOPE}{SHORT}{BEHIND}{'5a' * MOST}\n{ENVELOPE}{LONG}{BEHIND}{'5a' * (MOST + 1)}\n")
else:
    sys.stdout.write(REPORT)
