#!/usr/bin/env python3
"""Compares `lid walk` with a slow interleaving machine, written from its definition, on random schedules.

    tools/dev/walks.py SEED COUNT STEPS

The machine has two numbers for each actor, how often it has fired and its position; a token is packed from the
strict table (`Run` of clocks.py). A ring, a diamond, a pipeline, COUNT random designs and
as many generated ones of 1 to 12 shells, with random stations and rows, are walked along schedules of STEPS actors. It stops at the first difference.
"""

import sys
import tempfile
from pathlib import Path

from arguments import numbers
from clocks import Run
from compare import Maker, rows_text, text_of
from gen import Draws
from generated import design
from rates import Session
from reference import Cover, Judge, Latch, Model, Refused, channels, pearls

FULL = 1 << 31


def register(name: str, init: str) -> Model:
    return Model(name, ["d"], ["q"], [], [Latch("d", "q", None, None, init)], [])


def ring() -> list[Model]:
    insts = [("reg0", [("d", "y"), ("q", "w")]), ("reg1", [("d", "w"), ("q", "y")])]
    return [Model("ring", [], ["y"], [], [], insts), register("reg0", "0"), register("reg1", "1")]


def diamond() -> list[Model]:
    insts = [
        ("reg", [("d", "x"), ("q", "a")]),
        ("xr", [("a", "a"), ("b", "b"), ("q", "y")]),
        ("reg", [("d", "a"), ("q", "b")]),
    ]
    differ = Cover(["a", "b"], "n", [("10", "1"), ("01", "1")])
    joined = Model("xr", ["a", "b"], ["q"], [], [differ, Latch("n", "q", None, None, "0")], [])
    return [Model("dia", ["x"], ["y"], [], [], insts), register("reg", "0"), joined]


def pipeline() -> list[Model]:
    """Four stages of eight bits, of which the first also reads a bit of the last."""
    names = [[f"{letter}{i}" for i in range(8)] for letter in "xmnoy"]
    insts = []
    for stage in range(4):
        bound = [("f", "y0" if stage == 0 else "zero")]
        bound += [(f"a{i}", names[stage][i]) for i in range(8)] + [(f"q{i}", names[stage + 1][i]) for i in range(8)]
        insts.append(("stage", bound))
    top = Model("pipe", names[0], names[4], [], [Cover([], "zero", [])], insts)
    latches = [Latch("d0" if i == 0 else f"a{i}", f"q{i}", None, None, "0") for i in range(8)]
    differ = Cover(["a0", "f"], "d0", [("10", "1"), ("01", "1")])
    ports = [f"a{i}" for i in range(8)]
    return [top, Model("stage", ["f", *ports], [f"q{i}" for i in range(8)], [], [differ, *latches], [])]


class Machine:
    """All actors at rest, and the stations with their start tokens."""

    def __init__(self, run: Run):
        self.run = run
        stations = range(len(run.caps))
        fill, drain, start = zip(*(run.edges[2 * s] for s in stations)) if stations else ((), (), ())
        count = len(run.after[0])
        self.ins = [[s for s in stations if drain[s] == v] for v in range(count)]
        self.outs = [[s for s in stations if fill[s] == v] for v in range(count)]
        self.fill, self.drain = fill, drain
        self.start = [m if run.rows else 0 for m in start]
        self.fired, self.position = [0] * count, [0] * count

    def cap(self, v: int) -> int:
        return max(self.run.rows - 1, 0) if v < self.run.nodes - 1 else self.run.rows

    def taken(self, s: int) -> int:
        v = self.drain[s]
        done = len(self.ins[v]) + len(self.outs[v]) + self.ins[v].index(s) < self.position[v]
        return self.fired[v] + done

    def put(self, s: int) -> int:
        v = self.fill[s]
        done = 2 * len(self.ins[v]) + len(self.outs[v]) + self.outs[v].index(s) < self.position[v]
        return self.start[s] + self.fired[v] + done

    def token(self, s: int, i: int) -> int:
        return sum(self.run.table[i][column] << j for j, column in enumerate(self.run.ports[s]))

    def word(self, s: int, i: int) -> str:
        """The word that has the place of token i, by what the station holds."""
        held = {j % self.run.caps[s]: self.token(s, j) | FULL for j in range(self.taken(s), self.put(s))}
        low = i % self.run.caps[s] // 2 * 2
        return f"{held.get(low, 0) | held.get(low + 1, 0) << 32:016x}"

    def found_nothing(self, v: int, told: str) -> str:
        self.position[v] = 0
        return told

    def moved(self, v: int, told: str) -> str:
        self.position[v] += 1
        if self.position[v] < 2 * (len(self.ins[v]) + len(self.outs[v])):
            return told
        self.position[v] = 0
        self.fired[v] += 1
        return told + " fired"

    def looked(self, v: int, told: str) -> str:
        self.position[v] += 1
        return told

    def step(self, v: int) -> str:
        ins, outs, at = self.ins[v], self.outs[v], self.position[v]
        if at == 0 and self.fired[v] == self.cap(v):
            return "done"
        if not ins and not outs:
            self.fired[v] += 1
            return "fired"
        if at < len(ins):
            s = ins[at]
            i = self.taken(s)
            if i == self.put(s):
                return self.found_nothing(v, f"void {s} {self.word(s, i)}")
            return self.looked(v, f"token {s} {self.token(s, i)}")
        at -= len(ins)
        if at < len(outs):
            s = outs[at]
            if self.put(s) - self.taken(s) == self.run.caps[s]:
                return self.found_nothing(v, f"stop {s} {self.word(s, self.put(s))}")
            return self.looked(v, f"room {s}")
        at -= len(outs)
        if at < len(ins):
            s = ins[at]
            return self.moved(v, f"take {s} {self.token(s, self.taken(s))}")
        s = outs[at - len(ins)]
        return self.moved(v, f"put {s} {self.token(s, self.put(s))}")


def compare_walk(session: Session, models: list[Model], judge: Judge, whole, steps: int):
    chans, nodes = channels(whole, judge), len(pearls(judge)) + 2
    name = lambda v: "in" if v == 0 else "out" if v == nodes - 1 else f"u{v - 1}"
    relays, caps = session.draw_stations([f"{name(a)} {name(b)} {piece}" for a, b, piece, _ in chans])
    names = judge.data_inputs(judge.root)
    rows = [[session.dice.randint(0, 1) for _ in names] for _ in range(session.dice.choice([0, 1, 2, 9, 300]))]
    session.files["net"].write_text(text_of(models))
    session.files["rows"].write_text(rows_text(names, rows))
    run = Run(judge, whole, chans, relays, caps, rows)
    machine = Machine(run)
    schedule = [session.dice.randrange(len(machine.fired)) for _ in range(steps)]
    session.files["schedule"].write_text(" ".join(map(str, schedule)) + "\n")
    lines = "".join(f"{v} {machine.step(v)}\n" for v in schedule)
    given = run.table[: machine.fired[nodes - 1]]
    wanted = lines + rows_text(judge.root.outputs, [[row[(), net] for net in judge.root.outputs] for row in given])
    words = ["walk", session.files["net"], session.files["rows"], "--stations", session.files["stations"]]
    came = session.run(*words, "--schedule", session.files["schedule"])
    session.want(came, (wanted, "", 0), " ".join(map(str, words)))
    for line in lines.splitlines():
        session.came[line.split()[1] + (" fired" if line.endswith(" fired") else "")] += 1


def main():
    seed, count, steps = numbers(__doc__, "SEED", "COUNT", "STEPS")
    maker = Maker(seed)
    with tempfile.TemporaryDirectory() as folder:
        session = Session(folder, maker.dice)
        session.files |= {name: Path(folder, name) for name in ("rows", "schedule")}
        known = [ring(), diamond(), pipeline()]
        made = [maker.design() for _ in range(count)] + [design(Draws(n), 1 + n % 12) for n in range(count)]
        for models in [*known, *made]:
            try:
                judge = Judge(models, models[0])
                whole = judge.run()
            except Refused:
                continue
            compare_walk(session, models, judge, whole, steps)
    print(*(f"{count:8} {answer}" for answer, count in session.came.most_common()), sep="\n")


if __name__ == "__main__":
    main()
