#!/usr/bin/env python3
"""A journal has room for a call as long as 65,536 entries are free: with 983,040 told one more call is made, and with 983,042 none.

Node 2, whose journal it is, learns 70 publications, in one message, at the beginning of each contact. Each frame that arrives is two entries: in the first contact
a request, a response, a RESET, an ACTIVATE, a STATE and the message; beside these stand the message and its 70 publications, the link and the contact that begin, and
those that end. So the first contact is told in 87 entries, with the two of the mended bearer. Each later one is told in 89: there is no request, and four entries more are
the cut by which the one before ends. A socket is two entries more, a publication of node scope three, and a call that changes nothing two.
"""

import sys

ANNOUNCED = 70
FIRST, AGAIN = 87, 89
ROOM = 983_040
CONTACTS = 11_044
LEFT = ROOM - FIRST - AGAIN * CONTACTS - 2 - 3

LINES = [("# A journal has room for a call as long as 65,536 entries are free.", "-"), ("node 1", "ok"), ("node 2", "ok"), ("socket 1", "socket 1")]
LINES += [(f"publish 1 1 100 {key} {key + 5} cluster {key}", "ok") for key in range(ANNOUNCED)]
LINES += [("link 1 2 0", "up"), ("mark", "ok")]
LINES += [("cut 2 0", "ok"), ("mend 2 0", "ok"), ("pump 0", "pumped 9")] * CONTACTS
LINES += [("socket 2", "socket 1"), ("publish 2 1 100 0 9 node 1", "ok")]
LINES += [("receive 2 1", "empty")] * (LEFT // 2 + 1)
LINES += [("receive 2 1", "limit journal 1048576")]

if sys.argv[1] == "script":
    print("\n".join(line for line, _ in LINES))
else:
    print("\n".join(f"{number} {answer}" for number, (_, answer) in enumerate(LINES, 1)))
