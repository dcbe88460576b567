#!/usr/bin/env python3
"""Compares `lid rate`, `size`, `slack`, `clock`, `walk` and `free` of this tree with those of another build of the program, as
an earlier release, on random systems.

    tools/dev/beside.py SEED COUNT OTHER [--program LID]

The systems are rings, ladders, blocks, fans and random ones (those of ratios.py), of up to 60 shells with up to 15 relay
stations on a channel, and generated designs of up to 30 shells, each with up to 40 rows. Of `rate` what is promised is
compared: the parts with their transitions, ratios and lags, which are the same whatever is found, and of both certificates
that the rules certify the graph, one by one; their closed walks, and the leads and depths that go with them, may be others,
and it is told how often they are. What the others print is the same, byte for byte: there is one answer (`clock` without
stalls and with random ones, `free` on one worker). It stops at the first difference. With `--program` another program is
compared than that of this tree.
"""

import random
import subprocess
import sys
import tempfile
from collections import Counter
from pathlib import Path

from arguments import absolute, parser_of
from compare import rows_text, text_of
from gen import Draws
from generated import design
from program import program
from rates import is_certified, marking, read_cert
from ratios import at_random, ladder, ring
from sizing import along, blocks, fan
from verilog import listed


def some_system(dice: random.Random) -> tuple[str, object]:
    """A netlist, and what gives the relay stations of its channels."""
    kind, size, most = dice.randrange(8), dice.randint(2, 30), dice.choice([1, 3, 6, 15])
    some = lambda _, names: [dice.randrange(most + 1) for _ in names]
    if kind == 0:
        return ring(size, dice), some
    if kind == 1:
        return ladder(2 * size, dice), some
    if kind == 2:
        return blocks(size, dice.random() < 0.5), some
    if kind == 3:
        ways, readers = dice.randint(1, 5), dice.randint(1, 6)
        return fan(ways, readers, 1), along(ways, readers) if dice.random() < 0.3 else some
    if kind > 5:
        return text_of(design(Draws(dice.getrandbits(64)), size)), some
    return at_random(size + 3, dice.randint(1, 3), dice), some


def ran(lid: Path, *words) -> str:
    run = subprocess.run([lid, *words], capture_output=True, text=True, check=False)
    return f"{run.returncode}\n{run.stderr}{run.stdout}"


def promised(cert: str) -> list:
    """What any certificate of a graph has."""
    return [(part["ratio"], [row[:2] for row in part["nodes"]]) for part in read_cert(cert)]


def graph_of(told: str, relays: list[int]) -> tuple[int, list]:
    names = [line.split()[1:4] for line in told.splitlines() if line.startswith("channel ")]
    shells = next(int(line.split()[1]) for line in told.splitlines() if line.startswith("shells"))
    node = lambda n: 0 if n == "in" else shells + 1 if n == "out" else int(n[1:]) + 1
    return marking(shells + 2, [(node(a), node(b), 0) for a, b, _ in names], relays, [2] * (sum(relays) + len(names)))


def fault(ours: Path, other: Path, net: Path, stations: Path, relays: list[int], came: Counter) -> str | None:
    """Where the programs differ."""
    words = [net, "--stations", stations]
    run = [net, net.with_suffix(".rows"), "--stations", stations]
    for word, *more in (
        ["size", *words], ["slack", *words], ["clock", *run], ["clock", *run, "--stalls", net.with_suffix(".stalls")],
        ["walk", *run, "--schedule", net.with_suffix(".schedule")], ["free", *run, "--workers", "1", "--rounds", "20"],
    ):
        told = ran(ours, word, *more)
        came[f"{word}, status {told[0]}"] += 1
        if not told.startswith("0\n") or told != ran(other, word, *more):
            return " ".join(map(str, [word, *more]))
    certs = [ran(lid, "rate", *words).removeprefix("0\n") for lid in (ours, other)]
    if promised(certs[0]) != promised(certs[1]):
        return "rate"
    count, edges = graph_of(ran(ours, "check", net), relays)
    if not all(is_certified(count, edges, read_cert(cert)) for cert in certs):
        return "certificate"
    came["the same text" if certs[0] == certs[1] else "another closed walk"] += 1
    return None


def write_run(net: Path, text: str, actors: int, dice: random.Random):
    """Rows of the netlist's inputs, stalls and a schedule, beside it."""
    clocks = {w for line in text.splitlines() if line.startswith(".latch") for w in line.split()[4:5]}
    names = [name for name in listed(text, ".inputs") if name not in clocks and name != "clk"]
    rows = [[dice.randrange(2) for _ in names] for _ in range(dice.randrange(41))]
    stalled = [f"{cycle} {dice.choice(['in', 'out', 'both'])}\n" for cycle in range(dice.choice([3, 12, 40])) if dice.random() < 0.4]
    net.with_suffix(".rows").write_text(rows_text(names, rows))
    net.with_suffix(".stalls").write_text("lid-stalls 1\n" + "".join(stalled))
    net.with_suffix(".schedule").write_text(" ".join(str(dice.randrange(actors)) for _ in range(dice.choice([0, 50, 2000]))) + "\n")


def main():
    parser = parser_of(__doc__)
    parser.add_argument("--program", type=absolute)
    for name, kind in (("SEED", int), ("COUNT", int), ("OTHER", absolute)):
        parser.add_argument(name, type=kind)
    given = parser.parse_args()
    dice, came, ours = random.Random(given.SEED), Counter(), given.program or program()
    with tempfile.TemporaryDirectory() as folder:
        net, stations = Path(folder, "net.blif"), Path(folder, "net.stations")
        for _ in range(given.COUNT):
            text, relays_of = some_system(dice)
            net.write_text(text)
            names = [line.split()[1:4] for line in ran(ours, "check", net).splitlines() if line.startswith("channel ")]
            relays = relays_of(dice, names)
            lines = [f"{a} {b} {p} {k}\n" for (a, b, p), k in zip(names, relays) if k > 0]
            stations.write_text("lid-stations 1\n" + "".join(lines))
            write_run(net, text, sum(relays) + text.count(".subckt") + 2, dice)
            found = fault(ours, given.OTHER, net, stations, relays, came)
            if found:
                sys.exit(f"{found} differs\n{text}{stations.read_text()}")
    print(*(f"{count:6} {answer}" for answer, count in came.most_common()), sep="\n")


if __name__ == "__main__":
    main()
