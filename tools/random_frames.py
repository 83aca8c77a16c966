#!/usr/bin/env python3
"""Prints random frames for `tipc_sim dissect`, one a line, in hexadecimal.

random_frames.py SEED COUNT: the same seed gives the same lines. Most are frames of all users and types, whose numbers are
often the least or the most that a field holds; tunnel packets carry nothing, packets that may stand there, others, or
bytes that are no packet. Four in ten are changed behind that: a bit or a byte, some bytes more or fewer, with the size
field mended or not. A few lines are bytes of no form, remarks or empty. For comparing two builds, or a build and another
dissector.
"""

import random
import sys

# By type, how many words the header of payload has; by user, how many types there are.
PAYLOAD_WORDS = (6, 11, 10, 8)
TYPES = {0: 4, 1: 4, 2: 4, 3: 4, 6: 1, 7: 3, 10: 2, 11: 2, 12: 3, 13: 2}
PAYLOAD, BUNDLER, LINK_PROTOCOL, CHANGEOVER, NAMES, FRAGMENTER, DISCOVERY = range(4), 6, 7, 10, 11, 12, 13
MAY_STAND_INSIDE = (*PAYLOAD, BUNDLER, NAMES, FRAGMENTER)
MOST_BODY, MOST_PIECE, MOST_ITEMS = 1_408, 1_412, 70
NETWORK = 4711


class Frames:
    """Draws frames."""

    def __init__(self, seed: int):
        self.draw = random.Random(seed)

    def number(self, width: int) -> int:
        """A number of so many bits, often one at an edge."""
        edges = (0, 1, (1 << width) - 1, 1 << (width - 1))
        return self.draw.choice((*edges, self.draw.getrandbits(width), self.draw.getrandbits(width), self.draw.getrandbits(min(4, width))))

    def flag(self) -> int:
        return self.draw.randrange(2)

    def some_bytes(self, least: int, most: int) -> bytes:
        """Some bytes, often few, now and then as many as may be."""
        few = self.draw.randint(least, min(least + 8, most))
        return self.draw.randbytes(self.draw.choice((few, few, few, self.draw.randint(least, most), most)))

    def words(self, count: int) -> bytes:
        return b"".join(self.number(32).to_bytes(4, "big") for _ in range(count))

    def payload(self, words: list) -> bytes:
        """Fills the header of payload, and answers what follows it."""
        words[1] |= self.draw.randrange(6) << 25 | self.number(4) << 21 | self.number(2) << 19 | self.number(16)
        for place in range(4, len(words)):
            words[place] = self.number(32)
        return self.some_bytes(0, MOST_BODY)

    def link_protocol(self, words: list, kind: int) -> bytes:
        words[2] = 0
        words[7], words[8] = self.number(32), self.number(5) << 2
        if kind != 0:
            return self.words(4)
        words[1] |= self.number(13) << 16 | self.number(16)
        words[2] = self.number(16) << 16
        words[4], words[5] = self.number(32), self.number(32)
        words[8] |= self.draw.randrange(4)
        return b""

    def bundle(self, words: list) -> bytes:
        """A bundle of packets, or of bytes that are none: nobody looks."""
        if self.flag():
            words[4] = max(2, self.number(16)) << 16
            return self.draw.randbytes(4 * self.draw.randrange(60))
        inside = [self.packet(self.draw.choice((*PAYLOAD, NAMES)), 0) for _ in range(self.draw.randint(2, 4))]
        words[4] = len(inside) << 16
        return b"".join(packet + bytes(-len(packet) % 4) for packet in inside)

    def changeover(self, words: list) -> bytes:
        """A tunnel packet: of a run of no packets, or with nothing, a packet or other bytes in it."""
        words[5] = self.flag()
        count, number = self.number(16), self.number(16)
        if count == 0:
            return self.words(2)
        words[4] = count << 16 | number
        way = self.draw.randrange(10)
        if way < 2:
            return self.words(2)
        if way < 7:
            inner = self.packet(self.draw.choice(MAY_STAND_INSIDE), number)
            return self.words(2) + (self.changed(inner) if way == 6 else inner)
        others = [user for user in TYPES if user != CHANGEOVER]
        return self.words(2) + (self.packet(self.draw.choice(others), self.number(16)) if way < 9 else self.some_bytes(1, 80))

    def behind(self, user: int, kind: int, words: list) -> bytes:
        """Fills the words of a header from the type on, and answers what follows it."""
        if user in PAYLOAD:
            return self.payload(words)
        if user == LINK_PROTOCOL:
            return self.link_protocol(words, kind)
        if user == DISCOVERY:
            words[2], words[4] = 0, self.draw.choice((NETWORK, self.number(32)))
            return b""
        words[1] |= self.number(16)
        if user == BUNDLER:
            return self.bundle(words)
        if user == CHANGEOVER:
            return self.changeover(words)
        if user == NAMES:
            return self.words(5 * self.draw.choice((1, 1, 2, 3, MOST_ITEMS)))
        words[4] = max(1, self.number(16))
        return self.some_bytes(1, MOST_PIECE)

    def packet(self, user: int, sequence: int) -> bytes:
        """A packet of a user; its sequence number is this where it has one."""
        kind = self.draw.randrange(TYPES[user])
        words = [0] * (PAYLOAD_WORDS[kind] if user in PAYLOAD else 10)
        words[1] = kind << 29
        words[2] = self.number(16) << 16 | sequence
        words[3] = self.number(32)
        rest = self.behind(user, kind, words)
        droppable = self.draw.randrange(4) if user in PAYLOAD else 0
        flags = (user in (LINK_PROTOCOL, DISCOVERY)) << 2 | droppable
        words[0] = 2 << 29 | user << 25 | len(words) << 21 | flags << 18 | 4 * len(words) + len(rest)
        return b"".join(word.to_bytes(4, "big") for word in words) + rest

    def changed(self, data: bytes) -> bytes:
        """The same with a change or two, and the size field mended or not."""
        changed = bytearray(data)
        for _ in range(self.draw.choice((1, 1, 1, 2))):
            way = self.draw.randrange(6)
            if way == 0:
                del changed[self.draw.randrange(len(changed) + 1) :]
            elif way == 1:
                changed += self.draw.randbytes(self.draw.randint(1, 8))
            elif changed:
                place = self.draw.randrange(len(changed) if way == 2 else min(48, len(changed)))
                changed[place] ^= 1 << self.draw.randrange(8)
        if self.draw.random() < 0.4 and len(changed) >= 4:
            first = int.from_bytes(changed[:4], "big") & ~0x1FFFF | len(changed) & 0x1FFFF
            changed[:4] = first.to_bytes(4, "big")
        return bytes(changed)

    def frame(self) -> bytes:
        packet = self.packet(self.draw.choice(list(TYPES)), self.number(16))
        return self.words(4) + (self.changed(packet) if self.draw.random() < 0.4 else packet)

    def line(self) -> str:
        way = self.draw.random()
        if way < 0.01:
            return self.draw.choice(("", "#", "# a remark"))
        return (self.draw.randbytes(self.draw.randint(1, 60)) if way < 0.03 else self.frame()).hex()


def main(words: list) -> int:
    if len(words) != 2:
        print(__doc__, file=sys.stderr)
        return 1
    frames = Frames(int(words[0]))
    for _ in range(int(words[1])):
        print(frames.line())
    return 0


if __name__ == "__main__":
    sys.exit(main(sys.argv[1:]))
