#!/usr/bin/env python3
"""Runs tipc_sim on scripts while one call of the system fails it.

failing_system.py PROGRAM SCRIPT..

For each script the program (a built tipc_sim) runs once as it is, and then once more for each call of a kind that it made, and that
call alone fails:

    memory    a request for memory is refused: status 0 or 5, and what is printed is the report, or a front of it
    read      a read of standard input fails: status 3, and nothing is printed
    write     a write to standard output fails: status 4, and what is printed is the report or a front of it (what a write left
              behind is written once more at the end)
    nothing   a write to standard output takes no byte: as write
    both      the first read and the first write fail: as read

The calls that fail stand in a few lines of C below, before the system's own (LD_PRELOAD). It needs a C compiler: $CC, cc or clang.
"""

import os
import shutil
import subprocess
import sys
import tempfile
from concurrent.futures import ThreadPoolExecutor
from pathlib import Path

READ_FAULT, WRITE_FAULT, NO_MEMORY = 3, 4, 5

# Calls are counted from 1. FAIL_memory, FAIL_read, FAIL_write and FAIL_nothing name the call of a kind that fails; 0 or nothing, none.
# At the end the counts of memory, reads and writes go to the file COUNTED.
CALLS = r"""
#define _GNU_SOURCE
#include <dlfcn.h>
#include <errno.h>
#include <stdio.h>
#include <stdlib.h>
#include <unistd.h>

static unsigned long asked, reads, writes;

static unsigned long number(const char *name)
{
    const char *text = getenv(name);
    return text ? strtoul(text, 0, 10) : 0;
}

static void *next(const char *name) { return dlsym(RTLD_NEXT, name); }

static int refuses(void)
{
    static unsigned long failing = -1;
    if (failing == -1ul) failing = number("FAIL_memory");
    return ++asked == failing;
}

static void tell(void)
{
    const char *path = getenv("COUNTED");
    unsigned long memory = asked;
    FILE *file = path ? fopen(path, "w") : 0;
    if (file) {
        fprintf(file, "%lu %lu %lu", memory, reads, writes);
        fclose(file);
    }
}

/* The program ends by _exit, which runs no destructor. */
void _exit(int status)
{
    tell();
    ((void (*)(int))next("_exit"))(status);
    __builtin_unreachable();
}

__attribute__((destructor)) static void end(void) { tell(); }

void *malloc(size_t size)
{
    static void *(*real)(size_t);
    if (!real) real = next("malloc");
    return refuses() ? 0 : real(size);
}

void *realloc(void *old, size_t size)
{
    static void *(*real)(void *, size_t);
    if (!real) real = next("realloc");
    return refuses() ? 0 : real(old, size);
}

ssize_t read(int file, void *bytes, size_t size)
{
    static ssize_t (*real)(int, void *, size_t);
    if (!real) real = next("read");
    if (file == 0 && ++reads == number("FAIL_read")) {
        errno = EIO;
        return -1;
    }
    return real(file, bytes, size);
}

static ssize_t write_bytes(int file, const void *bytes, size_t size)
{
    static ssize_t (*real)(int, const void *, size_t);
    if (!real) real = next("write");
    if (file != 1) return real(file, bytes, size);
    writes += 1;
    if (writes == number("FAIL_nothing")) return 0;
    if (writes == number("FAIL_write")) {
        errno = EIO;
        return -1;
    }
    return real(file, bytes, size);
}

/* Programs call it by one of these names. */
ssize_t write(int file, const void *bytes, size_t size) { return write_bytes(file, bytes, size); }

ssize_t __write(int file, const void *bytes, size_t size) { return write_bytes(file, bytes, size); }
"""


class System:
    """The program over the system's calls, of which some may fail."""

    def __init__(self, program: str, folder: Path):
        compiler = os.environ.get("CC") or shutil.which("cc") or shutil.which("clang")
        if not compiler:
            sys.exit("failing_system.py: no C compiler is there: set CC")
        source, self.library = folder / "failing.c", folder / "failing.so"
        source.write_text(CALLS)
        subprocess.run([compiler, "-O1", "-shared", "-fPIC", "-o", self.library, source, "-ldl"], check=True)
        self.program, self.counted = program, folder / "counted"

    def run(self, script: Path, failing: dict) -> tuple:
        """Status and report where these calls fail, each named by its kind and number."""
        more = {f"FAIL_{kind}": str(number) for kind, number in failing.items()}
        environment = {**os.environ, "LD_PRELOAD": str(self.library), **more}
        with script.open("rb") as source:
            ran = subprocess.run([self.program, "run"], stdin=source, capture_output=True, env=environment, check=False)
        return ran.returncode, ran.stdout

    def count(self, script: Path) -> tuple:
        """Status and report of a run in which nothing fails, and how often it asked for memory, read and wrote."""
        os.environ["COUNTED"] = str(self.counted)
        whole = self.run(script, {})
        del os.environ["COUNTED"]
        return whole, *map(int, self.counted.read_text().split())


def refused(whole: tuple, got: tuple) -> bool:
    """Whether a run is as it may be where memory is refused."""
    return got == whole or (got[0] == NO_MEMORY and whole[1].startswith(got[1]))


def unread(whole: tuple, got: tuple) -> bool:
    """Whether a run is as it must be where the script can't be read."""
    return got == (READ_FAULT, b"") and whole[0] != READ_FAULT


def unwritten(whole: tuple, got: tuple) -> bool:
    """Whether a run is as it must be where a write fails."""
    return got[0] == WRITE_FAULT and whole[1].startswith(got[1])


def cases_of(asked: int, reads: int, writes: int) -> list:
    """What fails in each run: a kind, its calls, and what the run must be like."""
    return [
        ("memory", [{"memory": k} for k in range(1, asked + 1)], refused),
        ("read", [{"read": k} for k in range(1, reads + 1)], unread),
        ("write", [{"write": k} for k in range(1, writes + 1)], unwritten),
        ("nothing", [{"nothing": k} for k in range(1, writes + 1)], unwritten),
        ("both", [{"read": 1, "write": 1}], unread),
    ]


def try_script(system: System, script: Path) -> int:
    """Lets each call fail on one script; answers how many runs were wrong."""
    whole, asked, reads, writes = system.count(script)
    told, wrong = [], 0
    with ThreadPoolExecutor(os.cpu_count()) as pool:
        for kind, calls, is_right in cases_of(asked, reads, writes):
            for failing, got in zip(calls, pool.map(lambda failing: system.run(script, failing), calls)):
                if not is_right(whole, got):
                    wrong += 1
                    print(f"{script.name}: {failing}: status {got[0]}, {len(got[1])} of {len(whole[1])} bytes", flush=True)
            told.append(f"{kind} {len(calls)}")
    print(f"{script.name}: {', '.join(told)}; {wrong} wrong", flush=True)
    return wrong


def main() -> int:
    if len(sys.argv) < 3:
        print(__doc__.strip(), file=sys.stderr)
        return 2
    with tempfile.TemporaryDirectory() as name:
        system = System(sys.argv[1], Path(name))
        wrong = sum([try_script(system, Path(path)) for path in sys.argv[2:]])
    return 1 if wrong else 0


if __name__ == "__main__":
    sys.exit(main())
