#!/usr/bin/env python3
"""Measures `lid rate` and `lid size` on the systems that are hardest for the search of ratios, and their growth.

    tools/dev/ratios.py [WORD] [--program LID]

It takes the systems whose names have WORD. A time is the processor's seconds in user mode of a whole program, the least of
three (of one where it took more than five seconds). `growth` is the time of `rate` at the last size over that at half of
it. Beside them stands what HowardMmc of LEMON takes to find one ratio of the same marked graph, which it reads as a text
of numbers; the column is left empty where LEMON is not there, and ~ says that it took more than a minute. With
`--program` another program is measured, as release/lid. It prints a table.

    tools/dev/ratios.py [WORD] --write FOLDER

writes each system as NAME.blif, NAME.stations and NAME.graph, the marked graph: how many transitions and edges it has, and
then for each edge where it begins, where it ends and its tokens.
"""

import os
import random
import subprocess
import sys
import tempfile
from pathlib import Path

from arguments import parser_of
from program import program
from rates import marking
from sizing import all_to_all, along, blocks, drawn, fan, gen, netlist, whole
from speed import lemon_program

MINUTE = 60


def ring(count: int, dice: random.Random | None = None) -> str:
    """Each shell reads the one before it; with dice they are numbered by chance."""
    at = list(range(count))
    if dice:
        dice.shuffle(at)
    before = {at[k]: at[k - 1] for k in range(count)}
    return netlist([[f"n{before[v]}"] for v in range(count)])


def ladder(count: int, dice: random.Random) -> str:
    """Two rings of half as many shells, numbered by chance, with a channel between them at each place: from the one to the
    other and back in turn."""
    half, at = count // 2, list(range(count))
    dice.shuffle(at)
    reads = {}
    for k in range(half):
        left, right = at[k], at[half + k]
        reads[left], reads[right] = [at[(k - 1) % half]], [at[half + (k - 1) % half]]
        (reads[left] if k % 2 else reads[right]).append(right if k % 2 else left)
    return netlist([[f"n{u}" for u in reads[v]] for v in range(count)])


def at_random(count: int, degree: int, dice: random.Random) -> str:
    """Each shell reads so many others."""
    return netlist([[f"n{u if u < v else u + 1}" for u in dice.sample(range(count - 1), degree)] for v in range(count)])


# A name, sizes, of which each is twice the one before, the netlist at a size, and its relay stations.
SYSTEMS = [
    ("ring", "a ring in order, 0 to 15", (1000, 2000, 4000), ring, drawn(15)),
    ("ring_shuffled", "a shuffled ring, 0 to 15", (1000, 2000, 4000), lambda n: ring(n, random.Random(2)), drawn(15)),
    ("ladder", "a shuffled ladder, 0 to 14", (1000, 2000, 4000), lambda n: ladder(n, random.Random(3)), drawn(14)),
    ("fan", "two ways of 64 a channel, 1,000 readers", (75, 150, 300), lambda n: fan(n, 1000, 1), None),
    ("blocks", "blocks of three ways as a ring, 0 to 5", (325, 650, 1300), lambda n: blocks(n, True), drawn(5)),
    ("random_one", "each shell reads one by chance, 0 to 12", (1000, 2000, 4000), lambda n: at_random(n, 1, random.Random(4)), drawn(12)),
    ("random_two", "each shell reads two by chance, 0 to 8", (1000, 2000, 4000), lambda n: at_random(n, 2, random.Random(5)), drawn(8)),
    ("gen", "`gen 7`, 0 to 3", (500, 1000, 2000), lambda n: gen(7, n), drawn(3)),
    ("all", "shells that all read each other, as many as there may be", (128,), lambda n: all_to_all(), whole),
    ("widest", "two ways of 365 channels with 64 each, 1,738 readers of eight pieces", (365,), lambda n: fan(365, 1738, 8), None),
]


class Timed:
    """The least time in user mode of some runs, and the peak memory in kilobytes of the last."""

    def __init__(self, words: list, given: Path | None = None, limit: int = 10 * MINUTE):
        self.seconds, self.kept, self.done = 0.0, 0, True
        for turn in range(3):
            used = self.run(words, given, limit)
            if not self.done:
                return
            self.seconds = used if turn == 0 else min(self.seconds, used)
            if self.seconds > 5:
                return

    def run(self, words: list, given: Path | None, limit: int) -> float:
        with open(given or os.devnull) as read:
            ran = subprocess.Popen(["timeout", "-s", "KILL", str(limit), *map(str, words)], stdin=read, stdout=subprocess.DEVNULL, stderr=subprocess.DEVNULL)
            _, status, used = os.wait4(ran.pid, 0)
            ran.returncode = os.waitstatus_to_exitcode(status)
        self.done, self.kept = ran.returncode == 0, used.ru_maxrss
        return used.ru_utime

    def __str__(self) -> str:
        return f"{self.seconds:.3f}" if self.done else "~"


class System:
    """A system of this size, as files."""

    def __init__(self, folder: Path, name: str, size: int, make, relays_of):
        self.net, self.stations, self.graph = (folder / f"{name}_{size}.{kind}" for kind in ("blif", "stations", "graph"))
        self.net.write_text(make(size))
        told = subprocess.run([program(), "check", self.net], capture_output=True, text=True, check=True).stdout.splitlines()
        names = [line.split()[1:4] for line in told if line.startswith("channel ")]
        shells = next(int(line.split()[1]) for line in told if line.startswith("shells"))
        relays = (relays_of or along(size, 1738 if size == 365 else 1000))(random.Random(1), names)
        self.stations.write_text("lid-stations 1\n" + "".join(f"{a} {b} {p} {k}\n" for (a, b, p), k in zip(names, relays) if k > 0))
        node = lambda n: 0 if n == "in" else shells + 1 if n == "out" else int(n[1:]) + 1
        self.count = sum(relays) + len(relays)
        nodes, edges = marking(shells + 2, [(node(a), node(b), 0) for a, b, _ in names], relays, [2] * self.count)
        self.graph.write_text(f"{nodes} {len(edges)}\n" + "".join(f"{a} {b} {m}\n" for a, b, m in edges))


def row(lid: Path, lemon: Path | None, folder: Path, name: str, said: str, sizes, make, relays_of) -> str:
    rates = []
    for size in sizes:
        system = System(folder, name, size, make, relays_of)
        rates.append(Timed([lid, "rate", system.net, "--stations", system.stations]))
    sized = Timed([lid, "size", system.net, "--stations", system.stations])
    peer = str(Timed([lemon], system.graph, MINUTE)) if lemon else ""
    growth = f"{rates[-1].seconds / max(rates[-2].seconds, 0.001):.1f}" if len(rates) > 1 and rates[-1].done else ""
    return f"| {said} | {sizes[-1]:,} | {system.count:,} | {rates[-1]} | {growth} | {peer} | {sized} | {sized.kept // 1024} |"


def main():
    parser = parser_of(__doc__)
    parser.add_argument("WORD", nargs="?", default="")
    parser.add_argument("--program", type=Path)
    parser.add_argument("--write", type=Path)
    given = parser.parse_args()
    chosen = [system for system in SYSTEMS if given.WORD in system[0]]
    if given.write:
        given.write.mkdir(parents=True, exist_ok=True)
        for name, _, sizes, make, relays_of in chosen:
            for size in sizes:
                System(given.write, name, size, make, relays_of)
        return
    lid = given.program or program()
    print("| System | size | stations | `rate` | growth | LEMON | `size` | MB |\n|---|---|---|---|---|---|---|---|")
    with tempfile.TemporaryDirectory() as folder:
        lemon = lemon_program(folder)
        for system in chosen:
            print(row(lid, lemon, Path(folder), *system), flush=True)


if __name__ == "__main__":
    main()
