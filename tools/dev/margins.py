#!/usr/bin/env python3
"""Compares `lid slack` and `lid size` with their definitions, on random small designs and placements.

    tools/dev/margins.py SEED COUNT
    tools/dev/margins.py SEED COUNT --beside PROGRAM

The slack of a channel is found by trying each number of further relay stations, and the sizes of at most six stations
by trying all lists of capacities up to 4, by the ratios of rates.py. The sizes that are printed must reach, none of them
can be lowered by one, and they are the first of those lists, or come before it where one of them is above 4. It stops at the first difference.

With --beside, COUNT generated systems of 1 to 30 shells, with up to 64 relay stations on a channel and in half of them
capacities up to 16, are given to `lid slack` and to another program, as an earlier release: both must print the same.
"""

import itertools
import random
import subprocess
import sys
import tempfile
from fractions import Fraction

from arguments import parser_of
from compare import Maker, text_of
from gen import Draws
from generated import design
from rates import Session, components, marking
from reference import Judge, Refused, channels, pearls
from walks import diamond, pipeline, ring


def least_mean(nodes: list[int], edges: list) -> Fraction:
    """The least ratio of closed walks, by Karp's theorem, of walks that begin anywhere."""
    walks = [dict.fromkeys(nodes, 0)]
    for _ in nodes:
        step: dict[int, int] = {}
        for a, b, tokens in edges:
            if a in walks[-1]:
                step[b] = min(step.get(b, 1 << 60), walks[-1][a] + tokens)
        walks.append(step)
    n = len(nodes)
    return min(max(Fraction(walks[n][v] - walks[k][v], n - k) for k in range(n) if v in walks[k]) for v in walks[n])


class System:
    def __init__(self, judge: Judge, whole):
        self.chans, self.nodes = channels(whole, judge), len(pearls(judge)) + 2
        name = lambda v: "in" if v == 0 else "out" if v == self.nodes - 1 else f"u{v - 1}"
        self.named = [f"{name(a)} {name(b)} {piece}" for a, b, piece, _ in self.chans]

    def ratios(self, relays, caps, forward=False) -> list[Fraction]:
        """The ratio of the component of each transition, or its forward ratio."""
        count, edges = marking(self.nodes, self.chans, relays, caps)
        stations = len(caps)
        used = [edge for k, edge in enumerate(edges) if not forward or k >= 2 * stations or k % 2 == 0]
        found = [Fraction(0)] * count
        for inside in components(count, edges):
            ratio = least_mean(inside, [edge for edge in used if edge[0] in inside])
            for v in inside:
                found[v] = ratio
        return found

    def longer(self, relays, caps, c, more):
        at = sum(relays[: c + 1]) + c + 1
        return [k + more * (i == c) for i, k in enumerate(relays)], caps[:at] + [2] * more + caps[at:]

    def slack_line(self, relays, caps, c) -> str:
        v, most = self.chans[c][0], min(64 - relays[c], 65536 - len(caps))
        now = self.ratios(relays, caps)[v]
        kept, then = 0, {}
        for more in range(most + 1):
            then[more] = self.ratios(*self.longer(relays, caps, c, more))[v]
            if then[more] >= now:
                kept = more
        low = then.get(kept + 1)
        told = f"{low.numerator}/{low.denominator}" if low is not None else "-"
        return f"slack {self.named[c]} {kept} next {told}\n"

    def reaches(self, relays, caps, wanted) -> bool:
        return self.ratios(relays, caps) == wanted


def compare_slack(session: Session, system: System, relays, caps):
    wanted = "".join(system.slack_line(relays, caps, c) for c in range(len(relays)))
    words = ["slack", session.files["net"], "--stations", session.files["stations"]]
    session.want(session.run(*words), (wanted, "", 0), "slack")
    session.came["slack"] += 1


def sizes_of(told: str) -> list[int]:
    two = told.startswith("lid-stations 1\n")
    lines = [line.split() for line in told.splitlines()[1:]]
    return [2 for line in lines for _ in range(int(line[3]) + 1)] if two else [int(c) for line in lines for c in line[4:]]


def compare_size(session: Session, system: System, relays, count: int):
    wanted = system.ratios(relays, [16] * count, forward=True)
    words = ["size", session.files["net"], "--stations", session.files["stations"]]
    told, said, status = session.run(*words)
    session.want((said, status), ("", 0), "size")
    if told.startswith("short "):
        session.want(system.reaches(relays, [16] * count, wanted), False, "size " + told)
        session.came["short"] += 1
        return
    caps = sizes_of(told)
    session.want(system.reaches(relays, caps, wanted), True, "size " + told)
    first = None
    if count <= 6:
        lists = map(list, itertools.product(range(2, 5), repeat=count))
        first = next((tried for tried in lists if system.reaches(relays, tried, wanted)), None)
    if first is not None and max(caps, default=2) <= 4:
        session.want(caps, first, "size " + told)
        session.came["size, all lists"] += 1
    elif first is not None:
        session.want(caps < first, True, "size " + told)
    for s in range(count):
        if caps[s] > 2:
            lower = caps[:s] + [caps[s] - 1] + [16] * (count - s - 1)
            session.want(system.reaches(relays, lower, wanted), False, f"size, station {s} " + told)
    session.came["size"] += 1


def compare_short(session: Session):
    """One way of the diamond with 28 relay stations, which is as many as 16 places on the other hold, and with 29."""
    session.files["net"].write_text(text_of(diamond()))
    for relays, wanted in ((28, "lid-stations 2"), (29, "short 0 31/32 of 1/1")):
        session.files["stations"].write_text(f"lid-stations 1\nu0 u1 0 {relays}\n")
        told, _, _ = session.run("size", session.files["net"], "--stations", session.files["stations"])
        session.want(told.split("\n")[0], wanted, f"size with {relays}")
    session.came["short"] += 1


def draw_long_stations(dice: random.Random, named: list[str]) -> str:
    """Stations with up to so many relay stations on a channel, in half of all texts of capacities 2 to 16."""
    most, plain = dice.choice([1, 3, 3, 12, 64]), dice.random() < 0.5
    lines = []
    for name in named:
        relays = dice.choice([0, dice.randint(0, most)])
        caps = [] if plain else [str(dice.randint(2, 16)) for _ in range(relays + 1)]
        lines.append(" ".join([name, str(relays), *caps]))
    return "\n".join([f"lid-stations {1 if plain else 2}", *lines]) + "\n"


def compare_beside(session: Session, seed: int, other: str):
    session.files["net"].write_text(text_of(design(Draws(seed), 1 + seed % 30)))
    told, _, _ = session.run("check", session.files["net"])
    named = [" ".join(line.split()[1:4]) for line in told.splitlines() if line.startswith("channel ")]
    session.files["stations"].write_text(draw_long_stations(session.dice, named))
    words = ["slack", session.files["net"], "--stations", session.files["stations"]]
    ran = subprocess.run([other, *words], capture_output=True, text=True, check=False)
    session.want(session.run(*words), (ran.stdout, ran.stderr, ran.returncode), "slack")
    session.want(ran.returncode, 0, "slack of the other program")
    session.came["systems"] += 1
    session.came["channels"] += len(named)
    session.came["channels of a shell to itself"] += sum(name.split()[0] == name.split()[1] for name in named)
    session.came["channels with a ratio next"] += sum(not line.endswith(" -") for line in ran.stdout.splitlines())


def compare_known(session: Session, maker: Maker, count: int):
    compare_short(session)
    known = [ring(), diamond(), pipeline()]
    made = [maker.design() for _ in range(count)] + [design(Draws(n), 1 + n % 5) for n in range(count)]
    for models in [*known, *made]:
        try:
            judge = Judge(models, models[0])
            system = System(judge, judge.run())
        except Refused:
            continue
        session.files["net"].write_text(text_of(models))
        relays, caps = session.draw_stations(system.named)
        if len(caps) > 14:
            continue
        compare_slack(session, system, relays, caps)
        compare_size(session, system, relays, len(caps))


def main():
    parser = parser_of(__doc__)
    parser.add_argument("SEED", type=int)
    parser.add_argument("COUNT", type=int)
    parser.add_argument("--beside", metavar="PROGRAM")
    given = parser.parse_args()
    maker = Maker(given.SEED)
    with tempfile.TemporaryDirectory() as folder:
        session = Session(folder, maker.dice)
        if given.beside:
            for seed in range(given.SEED, given.SEED + given.COUNT):
                compare_beside(session, seed, given.beside)
        else:
            compare_known(session, maker, given.COUNT)
    print(*(f"{count:8} {what}" for what, count in session.came.most_common()), sep="\n")


if __name__ == "__main__":
    main()
