#!/usr/bin/env python3
"""100,000 frames may be in the air; the event after which there are more is made and not answered.

Node 1 has links to 31 others and is cut and mended, so that each of its ticks sends 32 frames that nobody hears: a RESET to each of the
others, and a request. A tick of one of the others sends a STATE. The two kinds of ticks fill the air to the last frame.
"""

import sys

MOST_FRAMES = 100_000
NODES = 32
PEERS = NODES - 1
FIRST_LINK = 10  # each node's request, the response to it and its RESET, the ACTIVATE that answers that, and a STATE as the link goes up
LATER_LINK = 8  # node 1 is mended already: it sends no request, and nothing answers one
OF_NODE_1 = PEERS + 1
MENDED = FIRST_LINK + (PEERS - 1) * LATER_LINK + OF_NODE_1
TICKS_OF_NODE_1, TICKS_OF_OTHERS = divmod(MOST_FRAMES - MENDED, OF_NODE_1)


def lines() -> list:
    """Each line with its answer."""
    made = [(f"node {n}", "ok") for n in range(1, NODES + 1)]
    made += [(f"link 1 {n} 0", "up") for n in range(2, NODES + 1)]
    made += [("cut 1 0", "ok"), ("mend 1 0", "ok"), ("air 0", f"air {MENDED}")]
    made += [("tick 1", "ok")] * TICKS_OF_NODE_1
    made += [(f"tick {n}", "ok") for n in range(2, 2 + TICKS_OF_OTHERS)]
    made += [("air 0", f"air {MOST_FRAMES}"), ("tick 2", f"limit frames {MOST_FRAMES}")]
    return made


if sys.argv[1] == "script":
    print("\n".join([line for line, _ in lines()] + ["air 0"]))
else:
    print("\n".join(f"{number} {answer}" for number, (_, answer) in enumerate(lines(), 1)))
