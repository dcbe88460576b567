#!/usr/bin/env python3
"""Compares `lid place`, `lid rate` and `lid verify` with an independent reading of their manual on random
designs, placements and certificates.

    tools/dev/rates.py SEED COUNT

For designs that are accepted, wires and stations are drawn; the stations of `place`, the ratios and lags of
`rate` (by the least mean of closed walks and by longest walks), and what `verify` says of the certificate
and of certificates with a changed number (by the rules, one by one) are compared. It stops at the first
difference.
"""

import math
import random
import subprocess
import sys
import tempfile
from collections import Counter
from fractions import Fraction
from pathlib import Path

from arguments import numbers
from compare import Maker, text_of
from program import program
from reference import Judge, Refused, channels, pearls


def marking(nodes: int, chans: list, relays: list[int], caps: list[int]) -> tuple[int, list]:
    """The number of actors, and the edges from, to and with these tokens."""
    edges, mover, station = [], nodes, 0
    for (a, b, *_), k in zip(chans, relays):
        for place in range(k + 1):
            filler = a if place == 0 else mover - 1
            drainer = b if place == k else mover
            mover += place < k
            start = 1 if place == 0 else 0
            edges += [(filler, drainer, start), (drainer, filler, caps[station] - start)]
            station += 1
    return mover, edges + [(v, v, 1) for v in range(mover)]


def components(count: int, edges: list) -> list[list[int]]:
    least = list(range(count))
    changed = True
    while changed:
        changed = False
        for a, b, _ in edges:
            low = min(least[a], least[b])
            if (least[a], least[b]) != (low, low):
                least[a] = least[b] = low
                changed = True
    return [[v for v in range(count) if least[v] == c] for c in sorted(set(least))]


def least_ratio(nodes: list[int], edges: list) -> Fraction:
    """The least mean of closed walks, by Karp's theorem."""
    walks = [{nodes[0]: 0}]
    for _ in nodes:
        step: dict[int, int] = {}
        for a, b, tokens in edges:
            if a in walks[-1]:
                step[b] = min(step.get(b, 1 << 60), walks[-1][a] + tokens)
        walks.append(step)
    n = len(nodes)
    means = [max(Fraction(walks[n][v] - walks[k][v], n - k) for k in range(n) if v in walks[k]) for v in walks[n]]
    return min(means)


def lags(nodes: list[int], edges: list, p: int, q: int) -> dict[int, int]:
    lag = dict.fromkeys(nodes, 0)
    for _ in nodes:
        for a, b, tokens in edges:
            lag[b] = max(lag[b], lag[a] + p - q * tokens)
    return lag


def read_cert(text: str) -> list[dict]:
    parts = []
    for line in text.splitlines()[1:]:
        word, *rest = line.split()
        if word == "part":
            parts.append({"nodes": []})
        elif word in ("ratio", "cycle"):
            parts[-1][word] = [int(n) for n in rest]
        else:
            parts[-1]["nodes"].append([None if n == "-" else int(n) for n in rest])
    return parts


def is_certified(count: int, edges: list, parts: list[dict]) -> bool:
    """The rules, one by one."""
    owner = {}
    for number, part in enumerate(parts):
        for v, *_ in part["nodes"]:
            if v in owner or v >= count:
                return False
            owner[v] = number
    heads = [part["nodes"][0][0] for part in parts]
    if len(owner) != count or not parts or heads != sorted(heads):
        return False
    if any(owner[a] != owner[b] for a, b, _ in edges):
        return False
    return all(is_part(edges, part) for part in parts)


def is_part(edges: list, part: dict) -> bool:
    order = [v for v, *_ in part["nodes"]]
    told = {v: rest for v, *rest in part["nodes"]}
    p, q = part["ratio"]
    walk = part["cycle"]
    if order != sorted(order) or q < 1 or math.gcd(p, q) != 1 or any(k >= len(edges) for k in walk):
        return False
    if any(edges[a][1] != edges[b][0] for a, b in zip(walk, walk[1:] + walk[:1])):
        return False
    if sum(edges[k][2] for k in walk) * q != p * len(walk):
        return False
    for a, b, tokens in edges:
        if a in told and told[b][0] + q * tokens < told[a][0] + p:
            return False
    start = edges[walk[0]][0]
    if start not in told:
        return False
    _, lead, depth, via = told[start]
    if depth != 0 or via is not None or lead + p * (len(walk) - 1) < q * (len(walk) - 1):
        return False
    for v, (_, lead, depth, via) in told.items():
        if v == start:
            continue
        if via is None or via >= len(edges) or edges[via][1] != v or edges[via][0] not in told:
            return False
        before = told[edges[via][0]]
        if not (before[2] < depth and lead >= before[1] + q * edges[via][2]):
            return False
    return True


def spoil(text: str, dice: random.Random) -> str:
    """The text with one number after the header changed."""
    lines = text.splitlines()
    at = dice.randrange(1, len(lines))
    words = lines[at].split()
    if words[0] == "part":
        return text
    i = dice.randrange(1, len(words))
    words[i] = "-" if words[0] == "node" and i == 5 and dice.random() < 0.3 else str(max(0, int(words[i].replace("-", "0")) + dice.choice([-2, -1, 1, 2, 9])))
    lines[at] = " ".join(words)
    return "\n".join(lines) + "\n"


class Session:
    def __init__(self, folder: str, dice: random.Random):
        self.dice = dice
        self.files = {name: Path(folder, name) for name in ("net", "wires", "stations", "cert")}
        self.came: Counter = Counter()

    def run(self, *words) -> tuple[str, str, int]:
        ran = subprocess.run([program(), *words], capture_output=True, text=True, check=False)
        return ran.stdout, ran.stderr, ran.returncode

    def want(self, came, wanted, what: str):
        if came != wanted:
            print(*(f"--- {name}\n{path.read_text()}" for name, path in self.files.items() if path.exists()), sep="\n")
            print(what, "wanted", wanted, "came", came, sep="\n")
            sys.exit(1)

    def draw_stations(self, named: list[str]) -> tuple[list[int], list[int]]:
        relays = [self.dice.choice([0, 0, 1, 2, 3]) for _ in named]
        plain = self.dice.random() < 0.5
        caps = [[2 if plain else self.dice.choice([2, 2, 3, 5, 16]) for _ in range(k + 1)] for k in relays]
        lines = [
            f"{name} {k}" + ("" if plain else "".join(f" {c}" for c in own))
            for name, k, own in zip(named, relays, caps)
            if k or own != [2] or self.dice.random() < 0.5
        ]
        self.dice.shuffle(lines)
        self.files["stations"].write_text("\n".join([f"lid-stations {1 if plain else 2}", *lines]) + "\n")
        return relays, [c for own in caps for c in own]

    def compare_place(self, named: list[str]):
        reach = self.dice.randint(1, 9)
        wires = [self.dice.randint(1, 60) for _ in named]
        lines = [f"{name} {length}" for name, length in zip(named, wires)]
        self.dice.shuffle(lines)
        self.files["wires"].write_text("\n".join(["lid-wires 1", *lines]) + "\n")
        wanted = "lid-stations 1\n" + "".join(f"{name} {-(-length // reach) - 1}\n" for name, length in zip(named, wires))
        came = self.run("place", self.files["net"], "--wires", self.files["wires"], "--reach", str(reach))
        self.want(came, (wanted, "", 0), "place")

    def compare_rate(self, nodes: int, chans: list, named: list[str]):
        count, edges = marking(nodes, chans, *self.draw_stations(named))
        words = [self.files["net"], "--stations", self.files["stations"]]
        cert, _, status = self.run("rate", *words)
        self.want(status, 0, "rate")
        parts = read_cert(cert)
        ratios = []
        self.want(len(parts), len(components(count, edges)), "parts")
        self.want(is_certified(count, edges, parts), True, "certificate")
        for part, inside in zip(parts, components(count, edges)):
            own = [edge for edge in edges if edge[0] in inside]
            ratio = least_ratio(inside, own)
            self.want(part["ratio"], [ratio.numerator, ratio.denominator], "ratio")
            lag = lags(inside, own, ratio.numerator, ratio.denominator)
            self.want([row[:2] for row in part["nodes"]], [[v, lag[v]] for v in inside], "lags")
            ratios.append(ratio)
        self.came["slower than 1" if min(ratios) < 1 else "as fast as 1"] += 1
        self.compare_verdicts(nodes, count, edges, cert, words)

    def compare_verdicts(self, nodes: int, count: int, edges: list, cert: str, words: list):
        for text in [cert] + [spoil(cert, self.dice) for _ in range(3)]:
            self.files["cert"].write_text(text)
            parts = read_cert(text)
            if is_certified(count, edges, parts):
                lag = next(row[1] for part in parts for row in part["nodes"] if row[0] == nodes - 1)
                lines = [f"part {i} ratio {part['ratio'][0]}/{part['ratio'][1]}" for i, part in enumerate(parts)]
                wanted = ("\n".join(["certificate ok", *lines, f"sink lag {lag}"]) + "\n", "", 0)
            else:
                wanted = ("", "lid: not a certificate\n", 6)
            self.came["certified" if wanted[2] == 0 else "denied"] += 1
            self.want(self.run("verify", words[0], self.files["cert"], *words[1:]), wanted, "verify")


def main():
    seed, count = numbers(__doc__, "SEED", "COUNT")
    maker = Maker(seed)
    with tempfile.TemporaryDirectory() as folder:
        session = Session(folder, maker.dice)
        for _ in range(count):
            models = maker.design()
            try:
                judge = Judge(models, models[0])
                whole = judge.run()
            except Refused:
                continue
            nodes = len(pearls(judge)) + 2
            chans = channels(whole, judge)
            name = lambda v: "in" if v == 0 else "out" if v == nodes - 1 else f"u{v - 1}"
            named = [f"{name(a)} {name(b)} {piece}" for a, b, piece, _ in chans]
            session.files["net"].write_text(text_of(models))
            session.compare_place(named)
            session.compare_rate(nodes, chans, named)
    print(*(f"{count:6} {answer}" for answer, count in session.came.most_common()), sep="\n")


if __name__ == "__main__":
    main()
