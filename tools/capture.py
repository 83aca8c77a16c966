#!/usr/bin/env python3
"""Writes the frames of a script of tipc_sim as a capture file, for Wireshark and tshark.

capture.py PROGRAM SCRIPT > FILE: FILE (pcapng) has every frame that the script's run sends, in the order in which its
lines send them, each as the datagram of 127.0.0.1 that a live run over UDP would send: bearer x of node n stands at the
port 40000 + 64 x + n (docs/LIVE.md). A frame to all is a datagram to each other node. The line that sent a frame stands
in its comment, and line n at second n of the capture. tools/tipc.lua dissects what is in it:

    tshark -X lua_script:tools/tipc.lua -r FILE
"""

import pathlib
import struct
import sys
from typing import Iterator, NamedTuple

import tracing

BASE_PORT, PORTS_OF_BEARER = 40000, 64
LOCAL_HOST = bytes((127, 0, 0, 1))
# Blocks of a pcapng file, and its options for a comment and for their end; frames begin with an IPv4 header.
SECTION, INTERFACE, PACKET = 0x0A0D0D0A, 1, 6
COMMENT, NO_MORE = 1, 0
RAW_IP = 101
UDP, HOPS = 17, 64


class Datagram(NamedTuple):
    """A frame from one node to another, when it was sent in millionths of a second, and the remark beside it."""

    bearer: int
    sender: int
    receiver: int
    frame: bytes
    time: int
    comment: str


def padded(data: bytes) -> bytes:
    """The same with zeros behind it, up to a multiple of 4."""
    return data + bytes(-len(data) % 4)


def block(kind: int, body: bytes) -> bytes:
    size = struct.pack("<I", 12 + len(padded(body)))
    return struct.pack("<I", kind) + size + padded(body) + size


def option(code: int, value: bytes) -> bytes:
    return struct.pack("<HH", code, len(value)) + padded(value)


def packet_of(datagram: Datagram) -> bytes:
    """An IPv4 packet with the datagram in it; neither has a checksum."""
    base = BASE_PORT + PORTS_OF_BEARER * datagram.bearer
    size = 8 + len(datagram.frame)
    udp = struct.pack(">HHHH", base + datagram.sender, base + datagram.receiver, size, 0) + datagram.frame
    return struct.pack(">BBHHHBBH", 0x45, 0, 20 + size, 0, 0, HOPS, UDP, 0) + LOCAL_HOST + LOCAL_HOST + udp


def capture(datagrams: list) -> bytes:
    """A capture file with these datagrams."""
    out = block(SECTION, struct.pack("<IHHq", 0x1A2B3C4D, 1, 0, -1))
    out += block(INTERFACE, struct.pack("<HHI", RAW_IP, 0, 0))
    for datagram in datagrams:
        data = packet_of(datagram)
        head = struct.pack("<IIIII", 0, datagram.time >> 32, datagram.time & 0xFFFFFFFF, len(data), len(data))
        comment = option(COMMENT, datagram.comment.encode("utf-8", "replace")) + option(NO_MORE, b"")
        out += block(PACKET, head + padded(data) + comment)
    return out


def datagrams_of(program: str, lines: list) -> Iterator[Datagram]:
    """The datagrams of a script's run."""
    deeds = [tracing.Deed(number, text) for number, text in enumerate(lines, 1)]
    nodes = sorted(int(text.split(" ")[1]) for text in lines if text.startswith("node "))
    sent = dict.fromkeys(range(1, len(lines) + 1), 0)
    for frame in tracing.frames_of(program, deeds):
        line = deeds[frame.deed].line
        receivers = [frame.receiver] if frame.receiver else [node for node in nodes if node != frame.sender]
        for receiver in receivers:
            time, comment = line * 1_000_000 + sent[line], f"line {line}: {lines[line - 1]}"
            yield Datagram(frame.bearer, frame.sender, receiver, frame.data, time, comment)
        sent[line] += 1


def main(words: list) -> int:
    if len(words) != 2:
        print(__doc__, file=sys.stderr)
        return 1
    try:
        lines = pathlib.Path(words[1]).read_text(encoding="utf-8").splitlines()
        sys.stdout.buffer.write(capture(list(datagrams_of(words[0], lines))))
    except (tracing.CannotTrace, OSError) as error:
        print(f"capture.py: {error}", file=sys.stderr)
        return 2
    return 0


if __name__ == "__main__":
    sys.exit(main(sys.argv[1:]))
