#!/usr/bin/env python3
"""Compares what `lid emit` writes with the firing counts of marked graphs and with strict rows, on random designs,
placements and rows.

    tools/dev/emits.py SEED COUNT

A ring, a diamond, a pipeline, COUNT random designs and as many generated ones are emitted with random stations. What
`lid strict` says of the emitted netlist, for rows that are offered and taken at random, is compared with a slow model:
counts of firings without caps, by which the source is stopped and the sink is served, and the strict rows of the plain
netlist for the rows that were accepted. The size is counted by itself, and the refusals that it brings. It stops at the
first difference.
"""

import sys
import tempfile
from pathlib import Path

from arguments import numbers
from clocks import port_columns, tables
from compare import Maker, rows_text, text_of
from gen import Draws
from generated import design
from rates import Session, marking
from reference import Cover, Judge, Refused, channels, each_model, pearls
from walks import diamond, pipeline, ring

OWN = {"li_in_valid", "li_out_stop", "li_out_valid", "li_in_stop"}


def size_of(judge: Judge, chans: list, relays: list[int], caps: list[int]) -> int:
    """The size, over which no netlist is emitted."""
    names = judge.data_inputs(judge.root) + judge.root.outputs
    ports = [len(js) for (_, _, _, js), k in zip(chans, relays) for _ in range(k + 1)]
    cells = [1 + len(c.inputs) + len(c.rows) if isinstance(c, Cover) else 1 for _, m in pearls(judge) for i in each_model(judge, m) for c in i.cells]
    return sum(1 + len(n) for n in names) + sum(c * (1 + k) for c, k in zip(caps, ports)) + len(pearls(judge)) + sum(cells)


def refusal(judge: Judge, size: int) -> str | None:
    ins, outs = judge.data_inputs(judge.root), judge.root.outputs
    taken = [n for n in ins if n in OWN or n in outs] + [n for n in outs if n in OWN]
    if taken:
        return f"lid: emit NameTaken {taken[0]}\n"
    return f"lid: emit TooBig {size}\n" if size > 16384 else None


class Wrapped:
    """The wrapped design by its counts of firings."""

    def __init__(self, nodes: int, chans: list, relays: list[int], caps: list[int]):
        self.sink = nodes - 1
        self.count, edges = marking(nodes, chans, relays, caps)
        self.caps = caps
        # the stations that the source fills begin empty
        for s in range(len(caps)):
            a, b, _ = edges[2 * s]
            if a == 0:
                edges[2 * s : 2 * s + 2] = [(0, b, 0), (b, 0, caps[s])]
        self.edges = edges
        self.fired = [0] * self.count

    def stations(self, end: int, v: int) -> list[tuple[int, int]]:
        """Of the stations that an actor fills (0) or drains (1): the tokens held, and the capacity."""
        found = []
        for s, cap in enumerate(self.caps):
            a, b, start = self.edges[2 * s]
            if (a, b)[end] == v:
                found.append((start + self.fired[a] - self.fired[b], cap))
        return found

    def is_stopped(self) -> bool:
        return any(held == cap for held, cap in self.stations(0, 0))

    def is_served(self) -> bool:
        return all(held > 0 for held, _ in self.stations(1, self.sink))

    def cycle(self, valid: int, stop: int):
        now, rests = self.fired, ({0} if not valid else set()) | ({self.sink} if stop else set())
        most = lambda v: min(now[a] + tokens for a, b, tokens in self.edges if b == v)
        self.fired = [now[v] if v in rests else most(v) for v in range(self.count)]


def wanted_rows(judge: Judge, whole, model: Wrapped, rows: list[list[int]]) -> list[list[int]]:
    """What the emitted netlist puts out in each row: the data outputs, whether they are offered, whether it is stopped."""
    names, outs = judge.data_inputs(judge.root), judge.root.outputs
    told, accepted, served = [], [], []
    for row in rows:
        *data, valid, stop = row
        told.append([int(model.is_served()), int(model.is_stopped())])
        served.append(model.fired[model.sink])
        before = model.fired[0]
        model.cycle(valid, stop)
        if model.fired[0] > before:
            accepted.append(data)
    # any rows may follow: what was put out cannot depend on them
    further = [[1 - bit for bit in accepted[-1]] if accepted else [0] * len(names)] * (len(rows) + 1)
    table = tables(judge, whole, names, accepted + further)
    head = lambda k: [table[k][(), net] for net in outs]
    return [(head(k) if valid else [0] * len(outs)) + [valid, stopped] for k, (valid, stopped) in zip(served, told)]


def compare_emit(session: Session, models: list, judge: Judge, whole):
    chans, nodes = channels(whole, judge), len(pearls(judge)) + 2
    name = lambda v: "in" if v == 0 else "out" if v == nodes - 1 else f"u{v - 1}"
    relays, caps = session.draw_stations([f"{name(a)} {name(b)} {piece}" for a, b, piece, _ in chans])
    session.files["net"].write_text(text_of(models))
    words = ["emit", session.files["net"], "--stations", session.files["stations"]]
    text, said, status = session.run(*words)
    line = refusal(judge, size_of(judge, chans, relays, caps))
    if line is not None:
        session.want((text, said, status), ("", line, 1), "emit")
        session.came[line.split()[2]] += 1
        return
    session.want((said, status), ("", 0), "emit")
    session.files["emitted"].write_text(text)
    ins = judge.data_inputs(judge.root)
    for offered, stopped in ((1, 0), (0.5, 0.5), (0.9, 0.2), (0.3, 0.8)):
        draw = lambda chance: int(session.dice.random() < chance)
        rows = [[session.dice.randint(0, 1) for _ in ins] + [draw(offered), draw(stopped)] for _ in range(session.dice.choice([1, 6, 30]))]
        session.files["rows"].write_text(rows_text([*ins, "li_in_valid", "li_out_stop"], rows))
        wanted = wanted_rows(judge, whole, Wrapped(nodes, chans, relays, caps), rows)
        outs = [*judge.root.outputs, "li_out_valid", "li_in_stop"]
        session.want(session.run("strict", session.files["emitted"], session.files["rows"]), (rows_text(outs, wanted), "", 0), "strict of emit")
        session.came["served" if any(row[-2] for row in wanted) else "never served"] += 1
    session.want(session.run("check", session.files["emitted"])[2], 0, "check of emit")
    session.came["emitted"] += 1


def main():
    seed, count = numbers(__doc__, "SEED", "COUNT")
    maker = Maker(seed)
    with tempfile.TemporaryDirectory() as folder:
        session = Session(folder, maker.dice)
        session.files |= {name: Path(folder, name) for name in ("rows", "emitted")}
        known = [ring(), diamond(), pipeline()]
        made = [maker.design() for _ in range(count)] + [design(Draws(n), 1 + n % 12) for n in range(count)]
        for models in [*known, *made]:
            try:
                judge = Judge(models, models[0])
                whole = judge.run()
            except Refused:
                continue
            compare_emit(session, models, judge, whole)
    print(*(f"{count:8} {what}" for what, count in session.came.items()), sep="\n")


if __name__ == "__main__":
    main()
