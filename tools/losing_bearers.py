#!/usr/bin/env python3
"""Runs live runs over UDP whose bearers lose, repeat and exchange frames, or of which one stops.

losing_bearers.py PROGRAM [RUNS]: so many runs (where it isn't said, 25) of each kind, with plans of 2 to 8 nodes:

    lose      each bearer loses every tenth frame that it sends
    repeat    each bearer sends every seventh frame twice
    exchange  each bearer sends every thirteenth frame behind the next one
    all       all three
    stop      bearer 0 of node 1 sends and is sent nothing any more from some moment on

Each run has to end with status 0 and `audit yes`. It tells how many frames were lost, repeated and exchanged, and for a bearer that stops how
long it took until its node sent the first message over its other bearer: the shortest, the middle and the longest time.

What happens to the frames stands in some lines of C below, before the system's own sendto (LD_PRELOAD). It needs a C compiler: $CC, cc or clang.
"""

import os
import shutil
import subprocess
import sys
import tempfile
from pathlib import Path

# Frames are counted by socket, from 1. LOSE, REPEAT and EXCHANGE name which ones: each n-th; 0 or nothing, none. STOP_AFTER names the moment at
# which the bearer stops, in milliseconds from the first frame; 0 or nothing, it doesn't. Ports are those of docs/LIVE.md. A message is a
# frame whose packet isn't of the users 7 and 13 (docs/FORMATS.md). At the end the counts, and the microseconds from the stop to the
# first message over the other bearer (-1: there was none), go to the file COUNTED.
CALLS = r"""
#define _GNU_SOURCE
#include <arpa/inet.h>
#include <dlfcn.h>
#include <netinet/in.h>
#include <pthread.h>
#include <stdio.h>
#include <stdlib.h>
#include <string.h>
#include <sys/socket.h>
#include <sys/syscall.h>
#include <time.h>
#include <unistd.h>

enum { SOCKETS = 1024, STOPPED = 40001, OTHER = 40065, ENVELOPE = 16, MOST = 2048 };

typedef ssize_t (*Send)(int, const void *, size_t, int, const struct sockaddr *, socklen_t);

static struct { long sent; size_t held; char frame[MOST]; struct sockaddr_in to; } sockets[SOCKETS];
static long lost, repeated, exchanged, first, stopped = -1, over = -1;
static pthread_mutex_t lock = PTHREAD_MUTEX_INITIALIZER;

static long number(const char *name)
{
    const char *text = getenv(name);
    return text ? strtol(text, 0, 10) : 0;
}

static long now(void)
{
    struct timespec time;
    clock_gettime(CLOCK_MONOTONIC, &time);
    return time.tv_sec * 1000000 + time.tv_nsec / 1000;
}

static int is_each(const char *name, long count)
{
    long each = number(name);
    return each && count % each == 0;
}

static int port_of(int file)
{
    struct sockaddr_in own = {0};
    socklen_t size = sizeof own;
    getsockname(file, (struct sockaddr *)&own, &size);
    return ntohs(own.sin_port);
}

static int is_message(const unsigned char *frame, size_t size)
{
    int user = size > ENVELOPE ? frame[ENVELOPE] >> 1 & 15 : 7;
    return user != 7 && user != 13;
}

/* Whether the bearer has stopped, and this frame is of it or for it; notes when it stopped and when the first message went over the other. */
static int is_stopped(int from, int to, const void *frame, size_t size)
{
    long after = number("STOP_AFTER") * 1000, time = now();
    if (!first) first = time;
    if (!after || time - first < after) return 0;
    if (stopped < 0) stopped = time;
    if (from == OTHER && over < 0 && is_message(frame, size)) over = time;
    return from == STOPPED || to == STOPPED;
}

static void tell(void)
{
    const char *path = getenv("COUNTED");
    FILE *file = path ? fopen(path, "w") : 0;
    if (file) {
        fprintf(file, "%ld %ld %ld %ld", lost, repeated, exchanged, over < 0 ? -1 : over - stopped);
        fclose(file);
    }
}

/* The program ends by this call. */
void _exit(int status)
{
    tell();
    syscall(SYS_exit_group, status);
    __builtin_unreachable();
}

ssize_t sendto(int file, const void *frame, size_t size, int flags, const struct sockaddr *to, socklen_t length)
{
    static Send real;
    pthread_mutex_lock(&lock);
    if (!real) real = (Send)dlsym(RTLD_NEXT, "sendto");
    struct sockaddr_in peer = *(const struct sockaddr_in *)to;
    ssize_t answer = size;
    long count = ++sockets[file].sent;
    if (is_stopped(port_of(file), ntohs(peer.sin_port), frame, size) || is_each("LOSE", count)) {
        lost++;
    } else if (is_each("EXCHANGE", count) && !sockets[file].held && size <= MOST) {
        memcpy(sockets[file].frame, frame, sockets[file].held = size);
        sockets[file].to = peer;
    } else {
        answer = real(file, frame, size, flags, to, length);
        if (is_each("REPEAT", count)) {
            real(file, frame, size, flags, to, length);
            repeated++;
        }
        if (sockets[file].held) {
            real(file, sockets[file].frame, sockets[file].held, flags, (struct sockaddr *)&sockets[file].to, sizeof peer);
            sockets[file].held = 0;
            exchanged++;
        }
    }
    pthread_mutex_unlock(&lock);
    return answer;
}
"""

KINDS = {
    "lose": {"LOSE": 10},
    "repeat": {"REPEAT": 7},
    "exchange": {"EXCHANGE": 13},
    "all": {"LOSE": 10, "REPEAT": 7, "EXCHANGE": 13},
    "stop": {"STOP_AFTER": 20},
}
PLANS = [(2, 1, 100), (2, 4, 1000), (3, 2, 100), (4, 8, 100), (8, 2, 100), (8, 8, 100)]
# A run that goes on behind the moment at which a bearer is found to be silent.
LONG_PLANS = [(2, 8, 1000), (4, 8, 1000), (8, 8, 1000)]
SECONDS = 120


def library_in(folder: Path) -> Path:
    """The library whose calls stand before the system's."""
    compiler = os.environ.get("CC") or shutil.which("cc") or shutil.which("clang")
    if not compiler:
        sys.exit("losing_bearers.py: no C compiler is there: set CC")
    source, library = folder / "losing.c", folder / "losing.so"
    source.write_text(CALLS)
    subprocess.run([compiler, "-O2", "-shared", "-fPIC", "-pthread", "-o", library, source, "-ldl"], check=True)
    return library


def run(program: str, library: Path, plan: tuple, kind: dict) -> tuple:
    """Whether a run is as it has to be, and what the library counted."""
    counted = library.with_name("counted")
    more = {name: str(each) for name, each in kind.items()}
    environment = {**os.environ, "LD_PRELOAD": str(library), "COUNTED": str(counted), **more}
    words = [program, "live", "udp", *map(str, plan)]
    ran = subprocess.run(words, capture_output=True, env=environment, check=False, timeout=SECONDS)
    is_right = ran.returncode == 0 and ran.stdout.endswith(b"\naudit yes\n")
    if not is_right:
        print(f"{plan} {kind}: status {ran.returncode}: {ran.stdout.decode()[-200:]!r}", flush=True)
    return is_right, tuple(map(int, counted.read_text().split()))


def try_kind(program: str, library: Path, name: str, runs: int) -> int:
    """Makes the runs of a kind; answers how many were wrong."""
    plans = LONG_PLANS if name == "stop" else PLANS
    ended = [run(program, library, plans[place % len(plans)], KINDS[name]) for place in range(runs)]
    wrong = sum(not is_right for is_right, _ in ended)
    lost, repeated, exchanged = (sum(counted[place] for _, counted in ended) for place in range(3))
    print(f"{name}: {runs} runs, {wrong} wrong; {lost} frames lost, {repeated} repeated, {exchanged} exchanged", flush=True)
    times = sorted(counted[3] / 1000 for _, counted in ended if counted[3] >= 0)
    if times:
        told = f"{times[0]:.1f}, {times[len(times) // 2]:.1f} and {times[-1]:.1f} ms"
        print(f"    from the stop to the first message over the other bearer, in {len(times)} runs: {told}", flush=True)
    return wrong


def main() -> int:
    if len(sys.argv) not in (2, 3):
        print(__doc__.strip(), file=sys.stderr)
        return 2
    runs = int(sys.argv[2]) if len(sys.argv) == 3 else 25
    with tempfile.TemporaryDirectory() as name:
        library = library_in(Path(name))
        wrong = sum([try_kind(sys.argv[1], library, kind, runs) for kind in KINDS])
    return 1 if wrong else 0


if __name__ == "__main__":
    sys.exit(main())
