#!/usr/bin/env python3
"""Measures `lid size` and `lid slack`, and prints the table of docs/SIZING.md.

    tools/dev/sizing.py [WORD]

It takes the designs whose names have WORD. A time is the processor's (user and system) of the whole program, the lesser
of two where it is below 20 seconds, and memory is its peak, first that of `size`, then that of `slack` of all channels.
"""

import os
import random
import subprocess
import sys
import tempfile
from pathlib import Path

from arguments import parser_of
from program import program



def netlist(shells: list[list[str]], inputs: str = "", output: str = "n0", wide: int = 1) -> str:
    """Registers that each read some nets and keep the first of them. Shell K has the net nK; the last has so many: nK, nK.1
    and so on."""
    lines, made = [".model top"] + [f".inputs {inputs}"] * (inputs != "") + [f".outputs {output}"], {}
    for k, nets in enumerate(shells):
        nets_out = [f"n{k}"] + [f"n{k}.{i}" for i in range(1, wide if k == len(shells) - 1 else 1)]
        ins, outs = [f"i{i}" for i in range(len(nets))], [f"q{i}" for i in range(len(nets_out))]
        lines.append(" ".join([f".subckt s{len(ins)}_{len(outs)}"] + [f"{port}={net}" for port, net in zip(ins + outs, nets + nets_out)]))
        made[f"s{len(ins)}_{len(outs)}"] = [".inputs " + " ".join(ins), ".outputs " + " ".join(outs), *(f".latch i0 {q} 0" for q in outs)]
    return "\n".join(lines + [".end"] + [line for name, inside in made.items() for line in [f".model {name}", *inside, ".end"]]) + "\n"


def blocks(count: int, closed: bool) -> str:
    """In each block three ways meet again, of which two have a shell between."""
    shells = [["n" + str(3 * count) if closed else "x"]]
    for _ in range(count):
        at = len(shells) - 1
        shells += [[f"n{at}"], [f"n{at}"], [f"n{at}", f"n{at + 1}", f"n{at + 2}"]]
    return netlist(shells, "" if closed else "x", f"n{3 * count}")


def diamonds(count: int) -> str:
    """Two ways, of which one has a shell between, and again from where they meet."""
    shells = [["x"]]
    for k in range(count):
        shells += [[f"n{2 * k}"], [f"n{2 * k}", f"n{2 * k + 1}"]]
    return netlist(shells, "x", f"n{2 * count}")


def rings(count: int) -> str:
    return netlist([[f"n{k ^ 1}"] for k in range(2 * count)])


def all_to_all() -> str:
    return netlist([[f"n{k}" for k in range(128)]] * 128, "", "n0").replace(".outputs n0\n", "", 1)


def fan(way: int, ends: int, pieces: int) -> str:
    """Two ways of so many channels from shell 0, and shells at their end that read both: the one by a channel each, the
    other, which ends at the last shell, by so many."""
    last, wide = 2 * way + ends, 31 * (pieces - 1) + 1
    shells = [["x"]] + [[f"n{max(k - 2, 0)}"] for k in range(1, 2 * way)]
    read = [f"n{last}"] + [f"n{last}.{i}" for i in range(1, wide)]
    return netlist([*shells, *[[f"n{2 * way - 1}", *read] for _ in range(ends)], [f"n{2 * way - 2}"]], "x", "n0", wide)


def along(way: int, ends: int):
    """64 on each channel of the two ways, and one on those at the end of the one that have no second piece."""
    whole, last = {"u0 u1", *(f"u{k} u{k + 2}" for k in range(2 * way - 2)), f"u{2 * way - 2} u{2 * way + ends}"}, f"u{2 * way - 1}"
    return lambda dice, names: [64 if f"{a} {b}" in whole else int(a == last) for a, b, _ in names]


def drawn(most: int):
    return lambda dice, names: [dice.randrange(most + 1) for _ in names]


def beside(more: int):
    """So many on each way of a diamond that has no shell."""
    return lambda dice, names: [more if a != "in" and b != "out" and int(a[1:]) % 2 == 0 and int(b[1:]) - int(a[1:]) == 2 else 0 for a, b, _ in names]


def whole(dice: random.Random, names: list) -> list[int]:
    """As many as there may be, drawn about their mean."""
    relays = [(65536 - len(names)) // len(names)] * len(names)
    for _ in range(4 * len(names)):
        a, b = dice.randrange(len(names)), dice.randrange(len(names))
        if a != b and relays[a] > 0 and relays[b] < 64:
            relays[a], relays[b] = relays[a] - 1, relays[b] + 1
    return relays


def gen(seed: int, shells: int) -> str:
    return subprocess.run([program(), "gen", str(seed), "--shells", str(shells)], capture_output=True, text=True, check=True).stdout


DESIGNS = [
    ("`gen 7 --shells 200`, 0 to 3 relay stations a channel", lambda: gen(7, 200), drawn(3)),
    ("`gen 7 --shells 2000`, none", lambda: gen(7, 2000), drawn(0)),
    ("the same, 0 to 3", lambda: gen(7, 2000), drawn(3)),
    ("a chain of 300 blocks, in each of which three ways with 0 to 5 a channel meet again", lambda: blocks(300, False), drawn(5)),
    ("the same with 1,300", lambda: blocks(1300, False), drawn(5)),
    ("the same, closed to a ring", lambda: blocks(1300, True), drawn(5)),
    ("2,000 rings of two shells, 13 on one channel", lambda: rings(2000), lambda dice, names: [13 * (int(a[1:]) % 2 == 0) if b != "out" else 0 for a, b, _ in names]),
    ("2,000 diamonds in a row, 3 on one way", lambda: diamonds(2000), beside(3)),
    ("the same, 12 on one way", lambda: diamonds(2000), beside(12)),
    ("2,047 diamonds in a row, 28 on one way", lambda: diamonds(2047), beside(28)),
    ("a chain of 1,007 shells, 64 on each channel", lambda: netlist([["x"], *[[f"n{k}"] for k in range(1006)]], "x", "n1006"), lambda dice, names: [64 for _ in names]),
    ("128 shells that all read each other, 3 a channel in the mean", all_to_all, whole),
    ("two ways of 300 channels with 64 each, which 1,000 shells read", lambda: fan(300, 1000, 1), along(300, 1000)),
]


def spent(*words) -> tuple[float, int, str]:
    """The processor's seconds and the kilobytes of a run, and what it prints."""
    with tempfile.TemporaryFile("w+") as told:
        ran = subprocess.Popen([program(), *words], stdout=told)
        _, status, used = os.wait4(ran.pid, 0)
        ran.returncode = os.waitstatus_to_exitcode(status)
        if ran.returncode != 0:
            sys.exit(f"{words}: status {ran.returncode}")
        told.seek(0)
        return used.ru_utime + used.ru_stime, used.ru_maxrss, told.read()


def least(*words) -> tuple[float, int, str]:
    first = spent(*words)
    return min(first, spent(*words)) if first[0] < 20 else first


def wide(told: str) -> str:
    """How many stations have more than two places."""
    if told.startswith("short"):
        return told.split()[0]
    one = told.startswith("lid-stations 1\n")
    return "0" if one else f"{sum(int(c) > 2 for line in told.splitlines()[1:] for c in line.split()[4:]):,}"


def row(name: str, net: Path, relays_of) -> str:
    _, _, told = least("check", net)
    names = [line.split()[1:4] for line in told.splitlines() if line.startswith("channel ")]
    relays = relays_of(random.Random(1), names)
    stations = net.with_suffix(".stations")
    stations.write_text("lid-stations 1\n" + "".join(f"{a} {b} {p} {k}\n" for (a, b, p), k in zip(names, relays) if k > 0))
    rated, _, _ = least("rate", net, "--stations", stations)
    took, kept, sized = least("size", net, "--stations", stations)
    slack, held, _ = least("slack", net, "--stations", stations)
    count = sum(relays) + len(names)
    return f"| {name} | {len(names):,} | {count:,} | {wide(sized)} | {rated:.2f} | {took:.2f} | {kept // 1024} | {slack:.2f} | {held // 1024} |"


def main():
    parser = parser_of(__doc__)
    parser.add_argument("WORD", nargs="?", default="")
    word = parser.parse_args().WORD
    program()
    print("| Netlist | channels | stations | above 2 places | `rate` | `size` | MB | `slack` of all | MB |\n|---|---|---|---|---|---|---|---|---|")
    with tempfile.TemporaryDirectory() as folder:
        for name, make, relays_of in DESIGNS:
            if word in name:
                net = Path(folder, "net.blif")
                net.write_text(make())
                print(row(name, net, relays_of), flush=True)


if __name__ == "__main__":
    main()
