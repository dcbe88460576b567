#!/usr/bin/env python3
"""Compares `lid clock`, `wave` and `unwave` with a slow run, written from the definitions of firing counts and strict
tables, on random designs, placements and rows.

    tools/dev/clocks.py SEED COUNT

The slow run has no stations and no pearls: how often an actor has fired is the least that its edges allow, and a
token is packed from the strict table. `strict` and `clock` must give the same rows, and `clock` the cycles, the
firings and the trace of the slow run, with and without stalls, on one worker or more. What `wave` writes shows this trace, to waves.py and
to `unwave`. It stops at the first difference.
"""

import sys
import tempfile
from pathlib import Path

from arguments import numbers
from compare import Maker, rows_text, text_of
from rates import Session, marking
from reference import Judge, Refused, channels, pearls, settle
from waves import shown


def firing_counts(nodes: int, count: int, edges: list, rows: int, held: dict[int, set]) -> list[list[int]]:
    """The counts after each number of cycles, until the sink has fired for each row; `held` has who is held in a cycle."""
    cap = [max(rows - 1, 0) if v < nodes - 1 else rows for v in range(count)]
    after = [[0] * count]
    while after[-1][nodes - 1] < rows:
        now, rests = after[-1], held.get(len(after) - 1, set())
        most = lambda v: min([cap[v], *(now[a] + tokens for a, b, tokens in edges if b == v)])
        after.append([now[v] if v in rests else most(v) for v in range(count)])
    return after


def tables(judge: Judge, whole, names: list[str], rows: list[list[int]]) -> list[dict]:
    """The bit of each column in each row."""
    found, before = [], None
    for row in rows:
        before = settle(whole, dict(zip(names, row)), before)
        found.append(before)
    return found


def port_columns(judge: Judge) -> list[list[tuple]]:
    """The columns of the ports of each node but the sink."""
    shells = [[(path, net) for net in m.outputs] for path, m in pearls(judge)]
    return [[((), net) for net in judge.data_inputs(judge.root)], *shells]


class Run:
    """The slow run of a design with stations over rows."""

    def __init__(self, judge: Judge, whole, chans: list, relays: list[int], caps: list[int], rows: list[list[int]], stalls=None):
        self.nodes, self.stalls = len(pearls(judge)) + 2, stalls
        who = {"in": {0}, "out": {self.nodes - 1}, "both": {0, self.nodes - 1}}
        held = {cycle: who[word] for cycle, word in stalls or []}
        self.caps, self.rows = caps, len(rows)
        count, self.edges = marking(self.nodes, chans, relays, caps)
        self.after = firing_counts(self.nodes, count, self.edges, len(rows), held)
        self.table = tables(judge, whole, judge.data_inputs(judge.root), rows)
        named = port_columns(judge)
        self.ports = [[named[a][j] for j in js] for (a, _, _, js), k in zip(chans, relays) for _ in range(k + 1)]

    def cell(self, k: int, station: int) -> str:
        """The word of a station in the trace as cycle k begins."""
        filler, drainer, start = self.edges[2 * station]
        put = min(start, self.rows) + self.after[k][filler]
        taken = self.after[k][drainer]
        if put <= taken:
            return "."
        token = sum(self.table[taken][column] << j for j, column in enumerate(self.ports[station]))
        return f"{token}{'!' if put - taken == self.caps[station] else ''}"

    def told(self, trace: int | None) -> list[str]:
        cycles = len(self.after) - 1
        name = lambda v: "in" if v == 0 else "out" if v == self.nodes - 1 else f"u{v - 1}"
        lines = [f"cycles {cycles}"] + [f"fired {name(v)} {self.after[-1][v]}" for v in range(self.nodes)]
        if self.stalls is not None:
            lines.append(f"stalled {sum(cycle < cycles for cycle, _ in self.stalls)}")
        if trace is not None:
            stations = range(len(self.ports))
            lines += [f"trace {len(stations)} {min(trace, cycles)}"]
            lines += [" ".join(self.cell(k, s) for s in stations) or "-" for k in range(min(trace, cycles))]
        return lines


def compare_run(session: Session, judge: Judge, whole, chans: list, named: list[str]):
    relays, caps = session.draw_stations(named)
    names = judge.data_inputs(judge.root)
    rows = [[session.dice.randint(0, 1) for _ in names] for _ in range(session.dice.choice([0, 1, 2, 5, 9]))]
    session.files["rows"].write_text(rows_text(names, rows))
    run = Run(judge, whole, chans, relays, caps, rows)
    outs = rows_text(judge.root.outputs, [[row[(), net] for net in judge.root.outputs] for row in run.table])
    session.want(session.run("strict", session.files["net"], session.files["rows"]), (outs, "", 0), "strict")
    trace = session.dice.choice([None, 1, 3, 100])
    words = ["clock", session.files["net"], session.files["rows"], "--stations", session.files["stations"]]
    words += [] if trace is None else ["--trace", str(trace)]
    wanted = outs + "".join(line + "\n" for line in run.told(trace))
    session.want(session.run(*words), (wanted, "", 0), " ".join(map(str, words)))
    workers = str(session.dice.choice([1, 2, 3, 5, 64]))
    session.want(session.run(*words, "--workers", workers), (wanted, "", 0), f"clock on {workers} workers")
    if trace is not None:
        compare_wave(session, words[1:], run.told(trace)[run.nodes + 1 :])
    stalls = draw_stalls(session)
    run = Run(judge, whole, chans, relays, caps, rows, stalls)
    wanted = outs + "".join(line + "\n" for line in run.told(trace))
    session.want(session.run(*words, "--stalls", session.files["stalls"]), (wanted, "", 0), "clock under stalls")
    session.came["with rows" if rows else "without rows"] += 1


def draw_stalls(session: Session) -> list[tuple[int, str]]:
    """Stalls of random cycles, and their text in its file."""
    chance = session.dice.choice([0, 0.1, 0.5, 0.9])
    drawn = [(cycle, session.dice.choice(["in", "out", "both"])) for cycle in range(session.dice.choice([3, 12, 40]))]
    stalls = [stall for stall in drawn if session.dice.random() < chance]
    session.files["stalls"].write_text("lid-stalls 1\n" + "".join(f"{cycle} {word}\n" for cycle, word in stalls))
    return stalls


def compare_wave(session: Session, words: list, trace: list[str]):
    dump, _, status = session.run("wave", *words)
    session.want(status, 0, "wave")
    session.want(shown(dump.encode()), "\n".join(trace), "dump")
    session.files["dump"].write_text(dump)
    session.want(session.run("unwave", session.files["dump"]), ("\n".join(trace) + "\n", "", 0), "unwave")
    session.came["dumps"] += 1


def main():
    seed, count = numbers(__doc__, "SEED", "COUNT")
    maker = Maker(seed)
    with tempfile.TemporaryDirectory() as folder:
        session = Session(folder, maker.dice)
        session.files |= {name: Path(folder, name) for name in ("rows", "dump", "stalls")}
        for _ in range(count):
            models = maker.design()
            try:
                judge = Judge(models, models[0])
                whole = judge.run()
            except Refused:
                continue
            nodes = len(pearls(judge)) + 2
            chans = channels(whole, judge)
            name = lambda v: "in" if v == 0 else "out" if v == nodes - 1 else f"u{v - 1}"
            named = [f"{name(a)} {name(b)} {piece}" for a, b, piece, _ in chans]
            session.files["net"].write_text(text_of(models))
            compare_run(session, judge, whole, chans, named)
    print(*(f"{count:6} {answer}" for answer, count in session.came.most_common()), sep="\n")


if __name__ == "__main__":
    main()
