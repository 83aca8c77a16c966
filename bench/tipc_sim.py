#!/usr/bin/env python3
"""How many messages a second the program carries over one link, whether that depends on how many it has carried, and
how much memory it holds at the end, beside the bytes of the frames in its air. What a message costs where two links stand,
beside one link; what a failover costs by the number of packets that it moves. What a message by name costs beside one
by port; what a publication costs that every peer is told of; what a contact costs that begins with publications, and what
a change costs that subscribers are told of; and what a multicast costs, and how often it asks for memory. And how many
frames of 1,452 bytes `dissect` tells a second.

It runs the program that `rt ci` left in crates/tipc_sim/out, and counts instructions and allocations by valgrind; it is no part of the gate.
"""

import os
import pathlib
import subprocess
import time

PROGRAM = pathlib.Path(__file__).resolve().parent.parent / "crates/tipc_sim/out/tipc_sim"
NODES = "node 1\nnode 2\nlink 1 2 0\nmark\nsocket 1\nsocket 2\n"
ENVELOPE, MESSAGE_HEADER, STATE_FRAME = 16, 32, 56


def run(script: str) -> tuple:
    """The report of a script, its seconds, and the most bytes that the program held."""
    start = time.monotonic()
    with subprocess.Popen([PROGRAM, "run"], stdin=subprocess.PIPE, stdout=subprocess.PIPE) as child:
        child.stdin.write(script.encode())
        child.stdin.close()
        report = child.stdout.read().decode()
        _, status, usage = os.wait4(child.pid, 0)
        child.returncode = os.waitstatus_to_exitcode(status)
    if child.returncode != 0:
        raise SystemExit(f"status {child.returncode}: {report[-200:]}")
    return report, time.monotonic() - start, usage.ru_maxrss * 1024


def measure(what: str, script: str, messages: int, body: int) -> None:
    """Prints what the messages of a script took, each of which is one packet."""
    report, seconds, held = run(script + "air 0\n")
    frames = int(report.split()[-1])
    air = messages * (ENVELOPE + MESSAGE_HEADER + body) + (frames - messages) * STATE_FRAME
    print(f"{what}: {seconds:.3f} s, {messages / seconds:,.0f} messages a second, {frames} frames of {air:,} bytes, {held:,} bytes held")


def burst(messages: int) -> str:
    """Messages of one byte, each sent, pumped and received before the next."""
    return NODES + f"burst 1 1 2 1 {messages} =x\n"


def fifties(messages: int) -> str:
    """Messages of 1,000 bytes, pumped in fifties."""
    return NODES + "repeat 50 send 1 1 port 2 1 low *1000\npump 0\ndrain 2 1\n" * (messages // 50)


def measure_each(what: str, script, first: int, last: int) -> None:
    """Prints what each message of a script takes, from one number of messages to another."""
    many = last - first
    steps = (instructions(script(last)) - instructions(script(first))) / many
    asked = (allocations(script(last)) - allocations(script(first))) / many
    print(f"{what}, from message {first} to {last}: {steps:,.0f} instructions and {asked:.1f} allocations a message")


def seconds_of(script: str) -> float:
    """The least of three runs."""
    return min(run(script)[1] for _ in range(3))


def measure_two_links(messages: int) -> None:
    """Prints what messages cost between two nodes with two links beside two nodes with one."""
    lines = "repeat 50 send 1 1 port 2 1 low =x\npump 0\npump 1\ndrain 2 1\n" * (messages // 50)
    took = {links: seconds_of(NODES + "link 1 2 1\n" * (links - 1) + lines) for links in (1, 2)}
    print(f"{messages} messages: {took[1]:.3f} s over one link, {took[2]:.3f} s where two stand, {took[2] / took[1]:.2f} times")


def instructions(script: str) -> int:
    """How many instructions a script takes, as valgrind's callgrind counts them: the same in each run, whatever else the machine does."""
    words = ["valgrind", "--tool=callgrind", "--callgrind-out-file=/dev/null", PROGRAM, "run"]
    told = subprocess.run(words, input=script.encode(), capture_output=True, check=True).stderr
    return int(told.split(b"Collected : ")[1].split()[0])


def allocations(script: str) -> int:
    """How many times a script asks for memory, as valgrind counts them: the same in each run."""
    words = ["valgrind", "--leak-check=no", PROGRAM, "run"]
    told = subprocess.run(words, input=script.encode(), capture_output=True, check=True).stderr
    return int(told.split(b"total heap usage: ")[1].split()[0].replace(b",", b""))


def measure_failover(messages: int) -> None:
    """Prints what a failover costs, from the cut to the last arrival, beside the same packets where no link is cut: 50 are
    unacknowledged, and those of so many messages wait, which have 47 packets each. A link lets at most five wait."""
    load = NODES + "link 1 2 1\n" + "repeat 50 send 1 1 port 2 1 low *1400\n" + "send 1 1 port 2 1 critical *66000\n" * messages
    failed, whole = load + "cut 1 0\npump 1\npump 0\n", load + "pump 0\n"
    cut = instructions(load + "cut 1 0\n") - instructions(load)
    more, asked = instructions(failed) - instructions(whole), allocations(failed) - allocations(whole)
    packets = 50 + 47 * messages
    print(f"a failover of 50 unacknowledged packets and {packets - 50} that wait: {cut:,} instructions for the cut, {more:,} more in all, "
          f"{more / packets:,.0f} and {asked / packets:.1f} allocations a packet")


def measure_names(messages: int) -> None:
    """Prints what messages by name cost beside messages by port, from one node to another."""
    nodes = NODES + "publish 2 1 100 0 9 cluster 1\npump 0\n"
    took = {way: seconds_of(nodes + f"repeat 50 send 1 1 {to} low =x\npump 0\ndrain 2 1\n" * (messages // 50))
            for way, to in (("port", "port 2 1"), ("name", "name 100 5"))}
    print(f"{messages} messages: {took['port']:.3f} s by port, {took['name']:.3f} s by name, {took['name'] / took['port']:.2f} times")


def measure_publications(peers: int, publications: int) -> None:
    """Prints what publications cost of which so many peers are told, one after the other, and what each item costs."""
    nodes = "".join(f"node {number}\n" for number in range(1, peers + 2))
    nodes += "".join(f"link 1 {number} 0\n" for number in range(2, peers + 2)) + "mark\nsocket 1\n"
    lines = "".join(f"publish 1 1 100 {key} {key} cluster {key}\n" + ("pump 0\n" if key % 50 == 0 else "") for key in range(publications))
    told, items = nodes + lines + "pump 0\n", publications * peers
    took = seconds_of(told) - seconds_of(nodes)
    steps, asked = instructions(told) - instructions(nodes), allocations(told) - allocations(nodes)
    print(f"{publications} publications, {peers} peers told: {took:.3f} s; an item takes {took / items * 1e6:.1f} microseconds, "
          f"{steps / items:,.0f} instructions and {asked / items:.1f} allocations")


def measure_greeting(publications: int) -> None:
    """Prints what a contact costs that begins at a node with so many publications: the contact begins and ends a hundred times."""
    contacts = 100
    lines = "".join(f"publish 1 1 100 {key} {key} cluster {key}\n" for key in range(publications))
    nodes = "node 1\nnode 2\nsocket 1\n"
    contact = "link 1 2 0\npump 0\ncut 1 0\n"
    took = seconds_of(nodes + lines + contact * contacts) - seconds_of(nodes + lines)
    bare = seconds_of(nodes + contact * contacts) - seconds_of(nodes)
    each = (took - bare) / contacts / publications * 1e6
    one, two = nodes + lines + contact, nodes + lines + contact * 2
    steps, asked = instructions(two) - instructions(one), allocations(two) - allocations(one)
    print(f"a contact that begins with {publications} publications: {took / contacts * 1e3:.2f} ms, {each:.2f} microseconds a publication; "
          f"{steps:,} instructions and {asked} allocations")


def measure_subscribers(subscribers: int, publications: int) -> None:
    """Prints what publications and their withdrawals cost that so many subscribers watch, and that they don't watch."""
    nodes = "node 1\nsocket 1\n"
    lines = "".join(f"publish 1 1 100 {key} {key} cluster {key}\nwithdraw 1 1 {key}\n" for key in range(publications))
    bare = seconds_of(nodes + lines)
    for what, kind in (("watched", 100), ("not watched", 200)):
        watching = nodes + f"subscribe 1 {kind} 0 4294967295 4294967295 ports\n" * subscribers
        took = (seconds_of(watching + lines) - seconds_of(watching) - bare) / (2 * publications)
        print(f"{subscribers} subscribers, a change that is {what}: {took * 1e6:.1f} microseconds more, {took / subscribers * 1e9:.0f} nanoseconds a subscriber")


def measure_multicasts(sockets: int) -> None:
    """Prints how often one multicast asks for memory, and its arrival with the rest of a pump, where a member has so many sockets more:
    neither copies anything, so they don't count."""
    nodes = NODES + "publish 2 1 100 0 9 cluster 1\npump 0\n" + "socket 2\n" * sockets
    send, pump = "send 1 1 cast 100 0 9 low =x\n", "pump 0\n"
    sent = allocations(nodes + send * 2) - allocations(nodes + send)
    heard = allocations(nodes + (send + pump) * 6) - allocations(nodes + (send + pump) * 5) - sent
    print(f"a multicast, where a member has {sockets} sockets more: {sent} allocations, {heard} in the pump in which it arrives")


def measure_members(members: int) -> None:
    """Prints what a multicast to so many members costs until each has received it, beside as many messages by port, and beside one
    message that is sent by port and so many that are received."""
    numbers = range(2, members + 2)
    nodes = "node 1\nsocket 1\n" + "".join(f"node {n}\nlink 1 {n} 0\nsocket {n}\npublish {n} 1 100 {n} {n} cluster {n}\n" for n in numbers)
    nodes += "pump 0\nmark\n"
    heard = "pump 0\nmark\n" + "".join(f"receive {n} 1\n" for n in numbers)
    send = "send 1 1 port 2 1 low =x\n"
    many = "".join(f"send 1 1 port {n} 1 low =x\n" for n in numbers) + heard

    def each(lines: str) -> float:
        return (instructions(nodes + lines * 30) - instructions(nodes + lines * 10)) / 20

    cast, ports, sent = each("send 1 1 cast 100 0 99 low =x\n" + heard), each(many), each(send)
    one = sent + members * (each(send + "pump 0\nmark\nreceive 2 1\n") - sent)
    print(f"a multicast to {members} members: {cast:,.0f} instructions, {ports:,.0f} by port, "
          f"{cast / one:.2f} times one that is sent and {members} that are received")


def measure_frames(frames: int) -> None:
    """Prints what the texts of frames took, each of which carries a message of 1,404 bytes in direct payload."""
    size = MESSAGE_HEADER + 1_404
    front = f"{1:08x}" * 4 + f"{0x41000000 + size:08x}60000000"
    behind = "01001001" + f"{1:08x}" * 2 + "0100100101001002"
    body = "".join(f"{place % 251:02x}" for place in range(1_404))
    lines = "".join(f"{front}{number % 65_536:08x}{behind}{body}\n" for number in range(frames)).encode()
    start = time.monotonic()
    with subprocess.Popen([PROGRAM, "dissect"], stdin=subprocess.PIPE, stdout=subprocess.PIPE) as child:
        told, _ = child.communicate(lines)
    seconds = time.monotonic() - start
    print(f"{frames} frames of {ENVELOPE + size:,} bytes as text: {seconds:.3f} s, {frames / seconds:,.0f} a second, {len(told):,} bytes written")


def main() -> None:
    for count in (1_000, 10_000, 30_000, 65_540):
        measure(f"burst of {count} messages of 1 byte", burst(count), count, 1)
    for count in (5_000, 20_000, 60_000):
        measure(f"{count} messages of 1,000 bytes, pumped in fifties", fifties(count), count, 1_000)
    for first, last in ((1_000, 2_000), (10_000, 11_000), (64_000, 65_000)):
        measure_each("a burst of messages of 1 byte", burst, first, last)
    for first, last in ((1_000, 2_000), (10_000, 11_000), (59_000, 60_000)):
        measure_each("messages of 1,000 bytes, pumped in fifties", fifties, first, last)
    measure_two_links(30_000)
    for messages in range(6):
        measure_failover(messages)
    measure_names(30_000)
    for publications in (256, 512, 1_024):
        measure_publications(31, publications)
    for publications in (256, 512, 1_024):
        measure_greeting(publications)
    for subscribers in (16, 256):
        measure_subscribers(subscribers, 10_000)
    for sockets in (0, 200):
        measure_multicasts(sockets)
    for members in (1, 8, 31):
        measure_members(members)
    measure_frames(5_700)


if __name__ == "__main__":
    main()
