#!/usr/bin/env python3
"""Runs a program on every row of rows/ and compares its status and each byte that it prints.

run_rows.py PROGRAM [NAME..]: all rows, or those of these names. It ends with a line `N passed, M failed`,
and with status 1 where a row failed, or where the program or a file of a row is missing.

A row is a few files in rows/:

    NAME.script   what the program gets on standard input
    NAME.report   what it must print, whole
    NAME.status   the exit status that it must end with, where that isn't 0
    NAME.words    the words behind the program's name, one a line, where they aren't `run`; an empty file is no word
    NAME.make     in place of a long script or report: `NAME.make script` and `NAME.make report` print what
                  isn't stored (Python 3; where NAME.report is stored, that counts)

rows/bad_lines.table has lines that are bad by themselves; each is run as a script of its own. rows/bad_frames.table has
lines that are no frame; each is a source of its own under `dissect`.

A few cases more stand here, since no file can say them: a full device and a closed one behind standard output, a
closed standard input, and little memory. So do live runs, of which no two print the same numbers: each must end with its
status, and print its first line, a line for each node, and the last one.
"""

import os
import re
import resource
import socket
import subprocess
import sys
import time
from pathlib import Path

ROWS = Path(__file__).resolve().parent.parent / "rows"
SECONDS = 60
KINDS = {".script", ".report", ".status", ".words", ".make"}
TABLES = {"run": "bad_lines.table", "dissect": "bad_frames.table"}

A_NODE = b"node 1\n"
A_FRAME = b"00" * 40 + b"\n"
USAGE, BAD_LINE, READ_FAULT, WRITE_FAULT, NO_MEMORY, BEARER_FAULT = 1, 2, 3, 4, 5, 7
MEBIBYTE = 1 << 20


class Missing(Exception):
    """A file that a row needs isn't there, or can't be made."""


def part_of(name: str, part: str) -> bytes:
    """The script or the report of a row: stored, or made."""
    stored, maker = ROWS / f"{name}.{part}", ROWS / f"{name}.make"
    if stored.exists():
        return stored.read_bytes()
    if not maker.exists():
        raise Missing(f"neither {stored.name} nor {maker.name} is there")
    made = subprocess.run([sys.executable, maker, part], capture_output=True, timeout=SECONDS)
    if made.returncode != 0:
        raise Missing(f"{maker.name} {part} ended with status {made.returncode}")
    return made.stdout


def words_of(name: str) -> list:
    path = ROWS / f"{name}.words"
    return path.read_text().splitlines() if path.exists() else ["run"]


def status_of(name: str) -> int:
    path = ROWS / f"{name}.status"
    return int(path.read_text()) if path.exists() else 0


def bad_lines(word: str) -> dict:
    """The lines of the table for this word: by a name, the word, the source of one line and the report that it must give."""
    found = {}
    for line in (ROWS / TABLES[word]).read_text().splitlines():
        fault, tab, text = line.partition("\t")
        if not line.startswith("#"):
            source = text.encode("ascii").decode("unicode_escape").encode("latin-1")
            why = fault if word == "run" else f"{fault} body"
            found[f"bad line {text!r} under {word}"] = (word, source, f"1 bad {why}\n".encode())
    return found


def difference(wanted: bytes, printed: bytes) -> str:
    """The first line in which two reports differ."""
    wanted_lines, lines = wanted.split(b"\n"), printed.split(b"\n")
    for place, (one, other) in enumerate(zip(wanted_lines, lines), 1):
        if one != other:
            return f"line {place}: {other[:100]!r}, wanted {one[:100]!r}"
    return f"{len(printed)} bytes, wanted {len(wanted)}"


def fault_of_row(program: str, name: str) -> str:
    """What is wrong with the program's run on a row; nothing where all is as it must be."""
    try:
        script, report = part_of(name, "script"), part_of(name, "report")
    except Missing as missing:
        return str(missing)
    return fault_of_run([program, *words_of(name)], script, report, status_of(name))


def fault_of_run(command: list, script: bytes, report: bytes, status: int) -> str:
    """What is wrong with a run of a command on a script; nothing where it ends and prints as it must."""
    ended = subprocess.run(command, input=script, capture_output=True, timeout=SECONDS)
    if ended.returncode != status:
        return f"status {ended.returncode}, wanted {status}; {difference(report, ended.stdout)}"
    if ended.stdout != report:
        return difference(report, ended.stdout)
    if ended.stderr:
        return f"on standard error: {ended.stderr[:100]!r}"
    return ""


def fault_of_shell(program: str, script: bytes, words: str, status: int) -> str:
    """The same for a run with a closed or full device, which the shell gives it."""
    ended = subprocess.run(["sh", "-c", f'exec "$0" {words}', program], input=script, capture_output=True, timeout=SECONDS)
    if ended.returncode != status:
        return f"status {ended.returncode}, wanted {status}"
    return f"printed {ended.stdout[:100]!r}" if ended.stdout else ""


# A script, what the shell gives the program beside it, and the status with which it must end.
DEVICES = {
    "a full device": (A_NODE, "run >/dev/full", WRITE_FAULT),
    "a bad line over a full device": (A_NODE + A_NODE, "run >/dev/full", WRITE_FAULT),
    "a closed output": (A_NODE, "run >&-", WRITE_FAULT),
    "a bad line over a closed output": (A_NODE + A_NODE, "run >&-", WRITE_FAULT),
    "a closed input": (A_NODE, "run <&-", READ_FAULT),
    "other words over a closed input": (A_NODE, "walk <&-", USAGE),
    "other words over a full device": (A_NODE, "walk >/dev/full", USAGE),
    "a live run over a full device": (b"", "live memory 2 1 1 >/dev/full", WRITE_FAULT),
    "frames over a full device": (A_FRAME, "dissect >/dev/full", WRITE_FAULT),
    "a line that is no frame over a full device": (A_FRAME + A_NODE, "dissect >/dev/full", WRITE_FAULT),
    "frames over a closed output": (A_FRAME, "dissect >&-", WRITE_FAULT),
    "frames of a closed input": (A_FRAME, "dissect <&-", READ_FAULT),
}


def fault_of_little(program: str, word: str, script: bytes, most: int, front: bytes) -> str:
    """The same for a run that has so many bytes of memory at most, and runs out: it may print any front of these bytes."""
    ended = subprocess.run(
        [program, word],
        input=script,
        capture_output=True,
        timeout=SECONDS,
        preexec_fn=lambda: resource.setrlimit(resource.RLIMIT_AS, (most, most)),
    )
    if ended.returncode != NO_MEMORY:
        return f"status {ended.returncode}, wanted {NO_MEMORY}; {ended.stderr[:100]!r} on standard error"
    if not front.startswith(ended.stdout):
        return f"no front of the report: {difference(front, ended.stdout)}"
    return f"on standard error: {ended.stderr[:100]!r}" if ended.stderr else ""


# A word and a script, the memory that the program has, its code included, and the answers of the lines for which that is
# enough. The program starts with 3 MiB. The air keeps the 60,000,000 bytes of the thousand bodies; a script is read whole.
LITTLE_MEMORY = {
    "memory runs out in a line": (
        "run",
        b"node 1\nnode 2\nlink 1 2 0\nsocket 1\nsocket 2\nburst 1 1 2 1 1000 *60000\nflow 1 2\n",
        32 * MEBIBYTE,
        b"1 ok\n2 ok\n3 up\n4 socket 1\n5 socket 1\n",
    ),
    "memory runs out before the first line": ("run", A_NODE + b"#" * (12 * MEBIBYTE), 8 * MEBIBYTE, b""),
    "memory runs out before the first frame": ("dissect", A_FRAME * (12 * MEBIBYTE // 81), 8 * MEBIBYTE, b""),
}


# The medium, nodes, callers of each, and messages of each of these.
LIVE_RUNS = {
    f"a live run {' '.join(map(str, plan))}": plan
    for plan in [
        ("memory", 2, 1, 1),
        ("memory", 2, 2, 10),
        ("memory", 3, 2, 20),
        ("memory", 2, 1, 1000),
        ("memory", 8, 8, 1),
        ("memory", 8, 8, 100),
        ("udp", 2, 1, 1),
        ("udp", 4, 2, 100),
    ]
}

# Words that are no live run's.
NO_LIVE_RUNS = {
    f"words {words!r}": words.split(" ")
    for words in [
        "live",
        "live memory 2 1",
        "live memory 2 1 1 1",
        "live memory 1 1 1",
        "live memory 9 1 1",
        "live memory 2 0 1",
        "live memory 2 9 1",
        "live memory 2 1 0",
        "live memory 2 1 1001",
        "live memory 02 1 1",
        "live memory +2 1 1",
        "live memory 4294967298 1 1",
        "live memory 2 1 x",
        "live memory 2  1",
        "live tcp 2 1 1",
        "live udp 9 1 1",
        "Live memory 2 1 1",
        "memory 2 1 1",
    ]
}

A_TAKEN_PORT = "a live run one of whose ports is taken"
BASE_PORT = 40000


def fault_of_report(report: bytes, nodes: int, callers: int, messages: int) -> str:
    """What is wrong with the report of a live run that must end with `audit yes`; nothing where it is as it must be."""
    lines = report.decode("ascii", "replace").splitlines()
    wanted = [rf"nodes {nodes} callers {callers} messages {messages}"]
    wanted += [rf"node {node} accepted \d+ delivered \d+ calls \d+" for node in range(1, nodes + 1)]
    wanted += ["audit yes"]
    for line, pattern in zip(lines, wanted):
        if not re.fullmatch(pattern, line):
            return f"{line!r}, wanted {pattern!r}"
    return "" if len(lines) == len(wanted) and report.endswith(b"\n") else f"{len(lines)} lines, wanted {len(wanted)}"


def take_port(port: int) -> socket.socket:
    """A socket at a port of the loopback address, once nobody else has that."""
    for _ in range(SECONDS):
        taken = socket.socket(socket.AF_INET, socket.SOCK_DGRAM)
        try:
            taken.bind(("127.0.0.1", port))
            return taken
        except OSError:
            taken.close()
            time.sleep(1)
    raise Missing(f"the port {port} is taken by another program")


def fault_of_live(program: str, medium: str, *plan: int) -> str:
    """The same for a live run."""
    if medium == "udp":
        take_port(BASE_PORT + 1).close()
    ended = subprocess.run([program, "live", medium, *map(str, plan)], capture_output=True, timeout=SECONDS)
    if ended.returncode != 0:
        return f"status {ended.returncode}, wanted 0; {ended.stdout[-100:]!r}"
    if ended.stderr:
        return f"on standard error: {ended.stderr[:100]!r}"
    return fault_of_report(ended.stdout, *plan)


def fault_of_taken_port(program: str) -> str:
    """The same for a live run that can't have one of its sockets."""
    with take_port(BASE_PORT + 64 + 2):
        return fault_of_run([program, "live", "udp", "2", "1", "1"], b"", b"", BEARER_FAULT)


def names_of_rows() -> list:
    return sorted({path.stem for path in ROWS.iterdir() if path.suffix in KINDS})


def fault_of(program: str, name: str, table: dict) -> str:
    try:
        if name in DEVICES:
            return fault_of_shell(program, *DEVICES[name])
        if name in LITTLE_MEMORY:
            return fault_of_little(program, *LITTLE_MEMORY[name])
        if name in table:
            word, source, report = table[name]
            return fault_of_run([program, word], source, report, BAD_LINE)
        if name in NO_LIVE_RUNS:
            return fault_of_run([program, *NO_LIVE_RUNS[name]], b"", b"", USAGE)
        if name in LIVE_RUNS:
            return fault_of_live(program, *LIVE_RUNS[name])
        if name == A_TAKEN_PORT:
            return fault_of_taken_port(program)
        return fault_of_row(program, name)
    except Missing as missing:
        return str(missing)
    except subprocess.TimeoutExpired:
        return f"not ended after {SECONDS} seconds"


def main(words: list) -> int:
    if not words:
        print(__doc__, file=sys.stderr)
        return 1
    program = os.path.abspath(words[0])
    try:
        table = bad_lines("run") | bad_lines("dissect")
    except (OSError, ValueError) as error:
        print(f"a table of rows/ can't be read: {error}")
        print("0 passed, 1 failed")
        return 1
    names = words[1:] or [*names_of_rows(), *table, *DEVICES, *LITTLE_MEMORY, *NO_LIVE_RUNS, *LIVE_RUNS, A_TAKEN_PORT]
    if not os.access(program, os.X_OK):
        print(f"{program} isn't there, so no row was run")
        print(f"0 passed, {len(names)} failed")
        return 1
    failed = 0
    for name in names:
        fault = fault_of(program, name, table)
        if fault:
            failed += 1
            print(f"FAILED {name}: {fault}")
    print(f"{len(names) - failed} passed, {failed} failed")
    return 1 if failed else 0


if __name__ == "__main__":
    sys.exit(main(sys.argv[1:]))
