#!/usr/bin/env python3
"""Prints a random script for `tipc_sim run`.

random_script.py SEED LINES: a script of so many lines behind the ones that make its nodes. The same
seed gives the same script. The nodes find each other on bearer 0, and links of bearer 1 are asked for; bearers are cut and
mended, links left to fall silent, nodes restarted, messages of any length are sent between all ports that were ever made, one or
many at a time, and frames arrive late, again and in any order.

random_script.py SEED LINES casts: a broadcast link that runs long. Node 1 multicasts to four members; frames are lost and arrive out of
order, members are cut and come back, and the numbers go around 65,536.

random_script.py SEED LINES poised: a world that is poised and has work left. Nodes find each other, some bearers stay cut, nodes are
restarted, and all settles; the lines behind that send and publish, lose frames and bring them out of order, but no node ticks so
often that a link falls silent. tools/settling.py lets such worlds settle.
"""

import random
import sys

BOOTS_BASE = 1_048_576
IMPORTANCES = ("low", "medium", "high", "critical")


class Cluster:
    """The nodes that a script has made, as far as it needs to know them."""

    def __init__(self, draw: random.Random):
        self.draw = draw
        self.nodes = list(range(1, draw.randint(2, 4) + 1))
        self.boots = {n: 1 for n in self.nodes}
        self.sockets = {n: 0 for n in self.nodes}

    def first_lines(self) -> list:
        lines = [f"node {n}" for n in self.nodes] + [f"mend {n} 0" for n in self.nodes] + ["settle 4"]
        lines += [f"link {a} {b} 1" for a in self.nodes for b in self.nodes if a < b and self.draw.random() < 0.7]
        for n in self.nodes:
            lines.append(self.socket(n))
        return lines

    def bearer(self) -> int:
        return self.draw.randint(0, 1)

    def node(self) -> int:
        return self.draw.choice(self.nodes)

    def two_nodes(self) -> tuple:
        return tuple(self.draw.sample(self.nodes, 2))

    def port(self, n: int) -> int:
        """Mostly a port of the present boot; sometimes one that isn't there."""
        boot = self.boots[n] if self.draw.random() < 0.9 else self.draw.randint(1, self.boots[n] + 1)
        return (boot - 1) * BOOTS_BASE + self.draw.randint(1, max(1, self.sockets[n]))

    def socket(self, n: int) -> str:
        self.sockets[n] += 1
        return f"socket {n}"

    def restart(self, n: int) -> str:
        self.boots[n] += 1
        self.sockets[n] = 0
        return f"restart {n}"

    def body(self) -> str:
        """Mostly a short text; sometimes so many bytes of the pattern, as long as a fragment or two and at the limit."""
        if self.draw.random() < 0.2:
            return f"*{self.draw.choice((0, 1, 251, 1_000, 1_420, 1_421, 5_000, 66_000, 66_001))}"
        return "=" + "".join(self.draw.choice("abcxyz=#") for _ in range(self.draw.randint(1, 8)))

    def send(self) -> str:
        a, b = self.two_nodes()
        importance = self.draw.choice(IMPORTANCES)
        return f"send {a} {self.port(a)} port {b} {self.port(b)} {importance} {self.body()}"

    def burst(self) -> str:
        a, b = self.two_nodes()
        return f"burst {a} {self.port(a)} {b} {self.port(b)} {self.draw.randint(1, 8)} {self.body()}"

    def line(self) -> str:
        """One more line."""
        kinds = {
            "send": 60, "arrive": 44, "receive": 16, "pump": 10, "tick": 14, "settle": 8, "cut": 4, "mend": 8,
            "restart": 1, "socket": 5, "links": 8, "flow": 10, "link": 6, "mark": 4, "repeat": 6, "drain": 8, "burst": 6,
            "air": 6, "show": 6,
        }
        kind = self.draw.choices(list(kinds), list(kinds.values()))[0]
        n = self.node()
        if kind == "send":
            return self.send()
        if kind == "arrive":
            return f"arrive {n} {self.bearer()} {self.draw.randint(0, self.draw.choice((10, 40, 400)))}"
        if kind == "repeat":
            return f"repeat {self.draw.randint(1, 12)} {self.send()}"
        if kind == "burst":
            return self.burst()
        if kind == "show":
            return f"show {self.bearer()} {self.draw.randint(0, self.draw.choice((10, 40, 400)))}"
        if kind in ("receive", "drain"):
            return f"{kind} {n} {self.port(n)}"
        if kind in ("pump", "air"):
            return f"{kind} {self.bearer()}"
        if kind == "settle":
            return f"settle {self.draw.randint(0, 6)}"
        if kind in ("cut", "mend"):
            return f"{kind} {n} {self.bearer()}"
        if kind == "restart":
            return self.restart(n)
        if kind == "socket":
            return self.socket(n)
        if kind == "flow":
            a, b = self.two_nodes()
            return f"flow {a} {b}"
        if kind == "link":
            a, b = self.two_nodes() if self.draw.random() < 0.95 else (n, n)
            return f"link {a} {b} {self.bearer()}"
        if kind == "mark":
            return "mark"
        return f"{kind} {n}"


class Casting:
    """A node that multicasts to four others, behind so many multicasts that its next number is near 65,536."""

    MEMBERS = (2, 3, 4, 5)
    NUMBERS = 65_536
    # what leaves and what waits where nobody says what it took: more of critical importance is refused then
    IN_FLIGHT, WAITING = 50, 200

    def __init__(self, draw: random.Random):
        self.draw = draw

    def first_lines(self) -> list:
        """Numbers are used up fast where the last contact ends while packets wait."""
        lines = [f"node {n}" for n in (1, *self.MEMBERS)] + [f"socket {n}" for n in (1, *self.MEMBERS)]
        lines += [f"publish {n} 1 200 0 {9 + n} cluster {n}" for n in self.MEMBERS] + ["link 1 2 0"]
        used = self.IN_FLIGHT + self.WAITING
        begin = self.NUMBERS - self.draw.randint(0, 2 * used)
        for _ in range(begin // used):
            lines += [f"repeat {used} send 1 1 cast 200 0 0 critical =x", "cut 1 0", "link 1 2 0"]
        lines += [f"link 1 {n} {x}" for n in self.MEMBERS for x in (0, 1)]
        return lines + ["settle 4", "mark"]

    def member(self) -> int:
        return self.draw.choice(self.MEMBERS)

    def cast(self) -> str:
        importance = self.draw.choice(IMPORTANCES)
        upper = self.draw.randint(0, 16)
        body = self.draw.choice(("=a", "=bb", "*0", "*1408", "*1409", "*5000", "*66000"))
        return f"send 1 1 cast 200 {self.draw.randint(0, upper)} {upper} {importance} {body}"

    def line(self) -> str:
        """One more line."""
        kinds = {
            "cast": 30, "repeat": 12, "late": 40, "pump": 14, "mark": 5, "tick": 10, "settle": 5, "cut": 4, "mend": 8, "receive": 6,
            "drain": 8, "flow": 4, "show": 4, "air": 4, "links": 4, "port": 4, "restart": 0.2,
        }
        kind = self.draw.choices(list(kinds), list(kinds.values()))[0]
        n, x = self.member(), self.draw.randint(0, 1)
        if kind == "cast":
            return self.cast()
        if kind == "repeat":
            return f"repeat {self.draw.choice((5, 60, 300))} {self.cast()}"
        if kind == "late":
            return f"arrive {self.draw.choice((1, n, n, n))} {x} {self.draw.randint(0, self.draw.choice((5, 30, 120)))}"
        if kind == "port":
            return f"send {n} 1 port 1 1 low =x"
        if kind == "flow":
            return f"flow 1 {n}"
        if kind in ("pump", "air"):
            return f"{kind} {x}"
        if kind == "show":
            return f"show {x} {self.draw.randint(0, 60)}"
        if kind == "settle":
            return f"settle {self.draw.randint(0, 5)}"
        if kind in ("cut", "mend"):
            return f"{kind} {1 if self.draw.random() < 0.08 else n} {x}"
        if kind in ("receive", "drain"):
            return f"{kind} {n} 1"
        if kind == "mark":
            return "mark"
        return f"{kind} {n}"


class Poised(Cluster):
    """A cluster whose links have settled, and lines that take none of them down."""

    SERVICE = 200
    MOST_TICKS = 3
    KINDS = {"send": 20, "repeat": 6, "name": 5, "arrive": 30, "pump": 3, "tick": 4, "drain": 4}

    def __init__(self, draw: random.Random):
        super().__init__(draw)
        self.nodes = list(range(1, draw.choice((2, 2, 3, 3, 4, 5)) + 1))
        self.boots = {n: 1 for n in self.nodes}
        self.sockets = {n: 0 for n in self.nodes}
        self.ticks = {n: 0 for n in self.nodes}
        self.keys = {n: [] for n in self.nodes}
        self.key = 0

    def first_lines(self) -> list:
        """Most bearers are mended; then up to three nodes are restarted, or a bearer is cut or mended; then all settles."""
        lines = [f"node {n}" for n in self.nodes] + [f"mend {n} {x}" for n in self.nodes for x in (0, 1) if self.draw.random() < 0.9]
        lines += ["settle 12"]
        for _ in range(self.draw.randint(0, 3)):
            n = self.node()
            kind = self.draw.choice(("cut", "mend", "restart"))
            lines.append(self.restart(n) if kind == "restart" else f"{kind} {n} {self.bearer()}")
            lines += [f"mend {n} 0", f"mend {n} 1"] if kind == "restart" else []
            lines += [f"settle {self.draw.randint(0, 4)}"]
        lines += ["settle 12"] + [self.socket(n) for n in self.nodes] + [self.publish(n) for n in self.nodes]
        return lines + ["settle 12", "mark"]

    def port(self, n: int) -> int:
        """A port of the present boot."""
        return (self.boots[n] - 1) * BOOTS_BASE + self.sockets[n]

    def publish(self, n: int) -> str:
        self.key += 1
        self.keys[n].append(self.key)
        lower = self.draw.randint(0, 9)
        return f"publish {n} {self.port(n)} {self.SERVICE} {lower} {lower + self.draw.randint(0, 9)} cluster {self.key}"

    def name(self, n: int) -> str:
        """A publication more, or one less."""
        if self.keys[n] and self.draw.random() < 0.4:
            return f"withdraw {n} {self.port(n)} {self.keys[n].pop()}"
        return self.publish(n)

    def send(self) -> str:
        a, b = self.two_nodes()
        to = self.draw.choice((f"port {b} {self.port(b)}", f"name {self.SERVICE} {self.draw.randint(0, 18)}", f"cast {self.SERVICE} 0 9"))
        return f"send {a} {self.port(a)} {to} {self.draw.choice(IMPORTANCES)} {self.body()}"

    def line(self) -> str:
        """One more line."""
        kind = self.draw.choices(list(self.KINDS), list(self.KINDS.values()))[0]
        n = self.node()
        if kind == "tick" and self.ticks[n] == self.MOST_TICKS:
            kind = "send"
        if kind == "tick":
            self.ticks[n] += 1
            return f"tick {n}"
        if kind == "send":
            return self.send()
        if kind == "repeat":
            return f"repeat {self.draw.randint(1, 20)} {self.send()}"
        if kind == "name":
            return self.name(n)
        if kind == "arrive":
            return f"arrive {n} {self.bearer()} {self.draw.randint(0, self.draw.choice((3, 10, 30)))}"
        if kind == "pump":
            return f"pump {self.bearer()}"
        return f"drain {n} {self.port(n)}"


KINDS = {"casts": Casting, "poised": Poised}


def main() -> None:
    seed, lines = int(sys.argv[1]), int(sys.argv[2])
    draw = random.Random(seed)
    cluster = KINDS[sys.argv[3]](draw) if sys.argv[3:] else Cluster(draw)
    script = cluster.first_lines()
    script += [cluster.line() for _ in range(lines)]
    print("\n".join(script))


if __name__ == "__main__":
    main()
