#!/usr/bin/env python3
"""Compares `lid gen` with a slow reading of its manual, and `lid strict`, `clock` and `rate` of what it makes with
the slow runs of clocks.py and rates.py.

    tools/dev/generated.py SEED COUNT

The seeds from SEED on are taken, with 1 to 30 shells. The text of each design is built from the draws of gen.py, and
so are the rows and the relay stations of its run; the last lines of `gen --run` are those of the slow runs. It stops
at the first difference.
"""

import sys
import tempfile
from pathlib import Path

from arguments import numbers
from clocks import Run
from compare import rows_text, text_of
from gen import Draws
from rates import Session, components, is_certified, least_ratio, marking, read_cert
from reference import Cover, Judge, Latch, Model, channels, pearls

DIFFER = [("10", "1"), ("01", "1")]
KINDS = [DIFFER, [("11", "1")], [("1-", "1"), ("-1", "1")], [("11", "0")]]


def cell(kind: int) -> Model:
    covers = [Cover(["a", "b"], "dq", KINDS[kind]), Cover(["b", "q"], "dr", DIFFER)]
    latches = [Latch("dq", "q", None, None, "0"), Latch("dr", "r", None, None, "1")]
    return Model(f"cel{kind}", ["a", "b"], ["q", "r"], [], [*covers, *latches], [])


def design(draws: Draws, shells: int) -> list[Model]:
    inputs, outputs = [f"x{i}" for i in range(4)], [f"y{i}" for i in range(4)]
    places = inputs + [f"n{i}_{port}" for i in range(shells) for port in "qr"]
    insts, before = [], "x0"
    for i in range(shells):
        kind = draws.draw(4)
        second = places[draws.draw(len(places))]
        insts.append((f"cel{kind}", [("a", before), ("b", second), ("q", f"n{i}_q"), ("r", f"n{i}_r")]))
        before = f"n{i}_q"
    buffers = [Cover([places[draws.draw(len(places))]], out, [("1", "1")]) for out in outputs]
    return [Model("gen", inputs, outputs, [], buffers, insts)] + [cell(kind) for kind in range(4)]


def compare_design(session: Session, seed: int, shells: int, count: int):
    draws = Draws(seed)
    models = design(draws, shells)
    text = text_of(models)
    session.files["net"].write_text(text)
    words = ["gen", str(seed), "--shells", str(shells)]
    session.want(session.run(*words), (text, "", 0), " ".join(words))
    judge = Judge(models, models[0])
    whole = judge.run()
    chans, nodes = channels(whole, judge), len(pearls(judge)) + 2
    rows = [[draws.draw(2) for _ in range(4)] for _ in range(count)]
    relays = [draws.draw(4) for _ in chans]
    name = lambda v: "in" if v == 0 else "out" if v == nodes - 1 else f"u{v - 1}"
    lines = [f"{name(a)} {name(b)} {piece} {k}" for (a, b, piece, _), k in zip(chans, relays)]
    session.files["stations"].write_text("\n".join(["lid-stations 1", *lines]) + "\n")
    session.files["rows"].write_text(rows_text(models[0].inputs, rows))
    caps = [2] * sum(k + 1 for k in relays)
    run = Run(judge, whole, chans, relays, caps, rows)
    outs = [[row[(), net] for net in models[0].outputs] for row in run.table]
    told = rows_text(models[0].outputs, outs)
    session.want(session.run("strict", session.files["net"], session.files["rows"]), (told, "", 0), "strict")
    clocked = run.told(None)
    placed = ["--stations", session.files["stations"]]
    came = session.run("clock", session.files["net"], session.files["rows"], *placed)
    session.want(came, (told + "".join(line + "\n" for line in clocked), "", 0), "clock")
    workers = [1, 2, 3, 5, 64][seed % 5]
    came = session.run("clock", session.files["net"], session.files["rows"], *placed, "--workers", str(workers))
    session.want(came, (told + "".join(line + "\n" for line in clocked), "", 0), f"clock on {workers} workers")
    ratio = compare_ratios(session, nodes, marking(nodes, chans, relays, caps), placed)
    ones = sum(map(sum, outs))
    sizes = [f"shells {shells}", f"channels {len(chans)}", f"stations {len(caps)}", f"rows {count}", f"ones {ones}"]
    summary = [*sizes, clocked[0], f"ratio {ratio.numerator}/{ratio.denominator}"]
    came = session.run(*words, "--run", str(count))
    session.want(came, ("".join(line + "\n" for line in summary), "", 0), " ".join([*words, "--run", str(count)]))
    session.came[f"at most {-(-ratio.denominator // ratio.numerator)} cycles a row"] += 1


def compare_ratios(session: Session, nodes: int, marked: tuple[int, list], placed: list):
    """The ratio of the sink's component."""
    count, edges = marked
    text, _, status = session.run("rate", session.files["net"], *placed)
    session.want(status, 0, "rate")
    parts, found = read_cert(text), components(count, edges)
    session.want(is_certified(count, edges, parts), True, "certificate")
    session.want(len(parts), len(found), "parts")
    ratios = [least_ratio(inside, [edge for edge in edges if edge[0] in inside]) for inside in found]
    session.want([part["ratio"] for part in parts], [[r.numerator, r.denominator] for r in ratios], "ratios")
    return next(ratio for ratio, inside in zip(ratios, found) if nodes - 1 in inside)


def main():
    first, count = numbers(__doc__, "SEED", "COUNT")
    with tempfile.TemporaryDirectory() as folder:
        session = Session(folder, None)
        session.files["rows"] = Path(folder, "rows")
        for seed in range(first, first + count):
            compare_design(session, seed, 1 + seed % 30, [1, 2, 3, 9, 40][seed % 5])
    print(*(f"{count:6} {answer}" for answer, count in session.came.most_common()), sep="\n")


if __name__ == "__main__":
    main()
