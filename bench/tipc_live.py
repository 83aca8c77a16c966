#!/usr/bin/env python3
"""How many messages a second a live run carries, over a medium in memory and over UDP, and how much processor time and memory a message takes: that
of the run with its audit, which makes each step again.

bench/tipc_live.py [BESIDE]: with BESIDE, the program of bench/beside.c, it prints beside each plan over memory what the same one takes over lists under
a mutex, without a protocol, a journal or an audit; and behind those over UDP what messages of the same size take over datagrams, over a TCP connection
and over an ENet connection.

It runs the program that `rt ci` left in crates/tipc_sim/out, or the one that TIPC_SIM names, and is no part of the gate.
"""

import os
import pathlib
import subprocess
import sys
import time

PROGRAM = os.environ.get("TIPC_SIM", pathlib.Path(__file__).resolve().parent.parent / "crates/tipc_sim/out/tipc_sim")
PLANS = [(2, 1, 1), (2, 1, 1000), (2, 4, 1000), (4, 2, 100), (8, 8, 100), (8, 8, 1000)]
RUNS = 3


def run(medium: str, plan: tuple) -> tuple:
    """The report of a run, its seconds, its processor seconds, and the most bytes that it held."""
    start = time.monotonic()
    with subprocess.Popen([PROGRAM, "live", medium, *map(str, plan)], stdout=subprocess.PIPE) as child:
        report = child.stdout.read().decode()
        _, status, usage = os.wait4(child.pid, 0)
        child.returncode = os.waitstatus_to_exitcode(status)
    if child.returncode != 0:
        raise SystemExit(f"live {medium} {plan}: status {child.returncode}: {report[-200:]}")
    return report, time.monotonic() - start, usage.ru_utime + usage.ru_stime, usage.ru_maxrss * 1024


def counts(report: str) -> tuple:
    """How many messages all nodes accepted and delivered, and how many calls were answered."""
    lines = [line.split() for line in report.splitlines() if line.startswith("node ")]
    return tuple(sum(int(line[place]) for line in lines) for place in (3, 5, 7))


def measure(medium: str, plan: tuple) -> None:
    """Prints the fastest of a few runs of a plan."""
    report, seconds, busy, held = min((run(medium, plan) for _ in range(RUNS)), key=lambda one: one[1])
    nodes, callers, each = plan
    sent = nodes * callers * each
    accepted, delivered, calls = counts(report)
    print(
        f"live {medium} {nodes} {callers} {each}: {seconds:.3f} s, {sent / seconds:,.0f} messages sent a second, "
        f"{busy / sent * 1e6:.1f} us of a processor each; {accepted} accepted, {delivered} delivered, {calls} calls, {held:,} bytes held",
        flush=True,
    )


def measure_beside(program: str, words: list) -> None:
    """Prints the fastest of a few runs of the program of bench/beside.c."""
    runs = [subprocess.run([program, *words], capture_output=True, check=True, text=True).stdout.split() for _ in range(RUNS)]
    seconds, messages, busy = min(((float(one[0]), int(one[1]), float(one[2])) for one in runs), key=lambda one: one[0] / one[1])
    print(f"    beside {' '.join(words)}: {seconds:.3f} s, {messages:,} messages came, {messages / seconds:,.0f} a second, {busy / messages * 1e6:.1f} us of a processor each", flush=True)


def main() -> None:
    beside = sys.argv[1] if len(sys.argv) > 1 else None
    for medium in ("memory", "udp"):
        for plan in PLANS:
            measure(medium, plan)
            if beside and medium == "memory":
                measure_beside(beside, ["queue", *map(str, plan)])
    for kind in ("udp", "tcp", "enet") if beside else ():
        for messages in (1000, 50000):
            measure_beside(beside, [kind, str(messages)])


if __name__ == "__main__":
    main()
