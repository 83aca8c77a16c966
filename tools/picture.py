#!/usr/bin/env python3
"""Draws a world of three nodes: the picture of the README.

picture.py PROGRAM: prints the picture as SVG. All that it shows the program told of the script examples/three_nodes.txt:
the state of each link end (`links`), what each journal has (`flow`), and the frames of each bearer's air with what
became of them (tools/tracing.py).
"""

import pathlib
import sys
from xml.sax.saxutils import escape

import tracing

SCRIPT = pathlib.Path(__file__).resolve().parent.parent / "examples" / "three_nodes.txt"
# From the left; neighbours in this order have links.
ORDER = (2, 1, 3)
WIDTH, HEIGHT = 900, 400
NODE_WIDTH, NODE_HEIGHT, NODE_TOP, APART = 200, 176, 40, 140
LINK_TOP, LINK_STEP = 96, 30
AIR_TOP, AIR_STEP = 262, 52
OF_THE_AIR = "A frame arrives where a line of the script lets it: once, again, late or never."
OF_THE_HEADLINE = (
    "Proved: what was ever delivered at b from a is a front of what a ever accepted for b, contact by contact, whatever arrives."
)
STATES = {"W": "up", "R": "in reset", "H": "held"}
STYLE = (
    "text{font:12px sans-serif;fill:#1f2328}.title{font-weight:bold}.small{font-size:11px}.node{fill:#f6f8fa;stroke:#57606a}"
    ".pair{fill:#ffffff;stroke:#57606a}.journal{fill:#fff8c5;stroke:#9a6700}"
    ".link{stroke:#0969da;stroke-width:2}.second{stroke-dasharray:6 3}"
    ".air{fill:#ddf4ff;stroke:#0969da}.arrived{fill:#dafbe1;stroke:#1a7f37}.away{fill:#ffffff;stroke:#bc4c00}"
)


class World:
    """What the program told."""

    def __init__(self, program: str):
        self.trace = tracing.trace(program, SCRIPT.read_text(encoding="utf-8"))
        told = {line.text: line.answer.split() for line in self.trace.lines}
        self.links = {}
        self.flows = {}
        for text, words in told.items():
            asked = text.split()
            if asked[:1] == ["links"]:
                self.links[int(asked[1])] = {int(peer[:-3]): peer[-2:] for peer in words[1:]}
            if asked[:1] == ["flow"]:
                self.flows[int(asked[1]), int(asked[2])] = (words[1], words[3])

    def journal(self, node: int) -> list:
        """What a node's journal tells of each peer: how many messages were accepted for it and delivered from it."""
        pairs = [(a, b) for a, b in self.flows if a == node]
        return [f"{self.flows[a, b][0]} accepted for {b}, {self.flows[b, a][1]} delivered from it" for a, b in pairs]


def text_at(x: float, y: float, text: str, kind: str = "small", anchor: str = "start") -> str:
    return f'<text x="{x}" y="{y}" class="{kind}" text-anchor="{anchor}">{escape(text)}</text>'


def box(x: float, y: float, width: float, height: float, kind: str) -> str:
    return f'<rect x="{x}" y="{y}" width="{width}" height="{height}" rx="4" class="{kind}"/>'


def left_of(node: int) -> int:
    return 10 + ORDER.index(node) * (NODE_WIDTH + APART)


def pair_left(node: int, peer: int) -> int:
    """A pair stands on the side of its peer."""
    return left_of(node) + (100 if ORDER.index(peer) > ORDER.index(node) else 8)


def node_box(world: World, node: int) -> list:
    """A node with its pairs, the ends of the links in them, and its journal."""
    left = left_of(node)
    parts = [box(left, NODE_TOP, NODE_WIDTH, NODE_HEIGHT, "node"), text_at(left + 10, NODE_TOP + 18, f"node {node}", "title")]
    for peer, letters in world.links[node].items():
        x = pair_left(node, peer)
        parts += [box(x, NODE_TOP + 26, 92, 86, "pair"), text_at(x + 46, NODE_TOP + 42, f"pair with {peer}", "small", "middle")]
        for bearer, letter in enumerate(letters):
            if letter != "-":
                parts.append(text_at(x + 46, LINK_TOP + 4 + LINK_STEP * bearer, f"end {bearer}: {STATES[letter]}", "small", "middle"))
    parts.append(box(left + 8, NODE_TOP + 118, NODE_WIDTH - 16, 52, "journal"))
    for row, text in enumerate(["journal", *world.journal(node)]):
        parts.append(text_at(left + 16, NODE_TOP + 132 + 14 * row, text))
    return parts


def links(world: World) -> list:
    """A line for each link, from end to end, bearer 1's dashed."""
    parts = []
    for left, right in zip(ORDER, ORDER[1:]):
        start, stop = left_of(left) + NODE_WIDTH - 8, left_of(right) + 8
        for bearer, letters in enumerate(zip(world.links[left][right], world.links[right][left])):
            if "-" in letters:
                continue
            y = LINK_TOP + LINK_STEP * bearer
            kind = "link second" if bearer else "link"
            parts.append(f'<path class="{kind}" d="M{start},{y}H{stop}"/>')
            parts.append(text_at((start + stop) / 2, y - 5, f"link on bearer {bearer}", "small", "middle"))
    return parts


def air(world: World, bearer: int) -> list:
    """The air of a bearer: a field for each frame since the mark, and whether it arrived."""
    first = next(number for number, deed in enumerate(world.trace.deeds) if deed.text == "mark")
    there = {(arrival.frame.bearer, arrival.frame.place) for arrival in world.trace.arrivals}
    frames = [frame for frame in world.trace.frames if frame.bearer == bearer and frame.deed > first]
    y = AIR_TOP + AIR_STEP * bearer
    parts = [box(10, y, WIDTH - 20, AIR_STEP - 10, "air"), text_at(20, y + 25, f"air of bearer {bearer}", "title")]
    for place, frame in enumerate(frames):
        arrived = (bearer, frame.place) in there
        x = 130 + 180 * place
        parts.append(box(x, y + 5, 170, AIR_STEP - 20, "arrived" if arrived else "away"))
        parts.append(text_at(x + 8, y + 19, f"frame {place}: {frame.name()}"))
        parts.append(text_at(x + 8, y + 32, f"{frame.sender} to {frame.receiver or 'all'}, {'arrived' if arrived else 'not yet, or never'}"))
    if not frames:
        parts.append(text_at(130, y + 25, "no frame since the mark"))
    return parts


def draw(program: str) -> str:
    world = World(program)
    parts = [
        f'<svg xmlns="http://www.w3.org/2000/svg" viewBox="0 0 {WIDTH} {HEIGHT}" width="{WIDTH}" height="{HEIGHT}">',
        "<title>Three nodes, their pairs and links, the air of both bearers, and the journals</title>",
        f"<style>{STYLE}</style>",
        f'<rect width="{WIDTH}" height="{HEIGHT}" fill="#ffffff"/>',
        text_at(10, 24, "A world of three nodes. A message goes through the node's pair onto a link, and as frames into the air."),
    ]
    for node in ORDER:
        parts += node_box(world, node)
    parts += [*links(world), text_at(10, AIR_TOP - 12, OF_THE_AIR), *air(world, 0), *air(world, 1)]
    parts.append(text_at(10, HEIGHT - 14, OF_THE_HEADLINE))
    return "\n".join([*parts, "</svg>", ""])


def main(words: list) -> int:
    if len(words) != 1:
        print(__doc__, file=sys.stderr)
        return 1
    try:
        sys.stdout.write(draw(words[0]))
    except (tracing.CannotTrace, OSError) as error:
        print(f"picture.py: {error}", file=sys.stderr)
        return 2
    return 0


if __name__ == "__main__":
    sys.exit(main(sys.argv[1:]))
