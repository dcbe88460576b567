#!/usr/bin/env python3
"""Compares `lid check` and `lid strict` with an independent reading of their manual (reference.py) on
random designs.

    tools/dev/compare.py SEED COUNT

Small designs are made that mostly are accepted, some faults are put in, and status, output and error
line of both commands are compared. It prints how often each answer came, and stops at the first difference.
"""

import random
import subprocess
import sys
import tempfile
from collections import Counter
from pathlib import Path

from arguments import numbers
from program import program
from reference import Cover, Judge, Latch, Model, Refused, firsts, report, simulate


class Maker:
    """Makes designs. Leaves have latches and covers, the models above them instances."""

    def __init__(self, seed: int):
        self.dice = random.Random(seed)

    def some(self, names: list[str], most: int) -> list[str]:
        return [self.dice.choice(names) for _ in range(self.dice.randint(0, most))] if names else []

    def cover(self, inputs: list[str], out: str) -> Cover:
        on = self.dice.choice("110")
        rows = ["".join(self.dice.choice("01-") for _ in inputs) for _ in range(self.dice.randint(0, 3))]
        return Cover(inputs, out, [(row, on) for row in rows])

    def wide_cover(self, nets: list[str], out: str) -> Cover:
        """A cover of seven to thirteen inputs: of these, those with many rows are run by tables of words."""
        on = self.dice.choice("10")
        inputs = [self.dice.choice(nets) for _ in range(self.dice.randint(7, 13))]
        rows = ["".join(self.dice.choice("01----") for _ in inputs) for _ in range(self.dice.randint(1, 70))]
        return Cover(inputs, out, [(row, on) for row in rows])

    def add_clock(self, m: Model):
        where = self.dice.randint(0, 2)
        if where < 2:
            m.inputs.insert(self.dice.randint(0, len(m.inputs)), "clk")
        if where > 0:
            m.clocks.append("clk")

    def leaf(self, name: str, edge: str) -> Model:
        m = Model(name, inputs=[f"i{j}" for j in range(self.dice.randint(0, 3))])
        latches = [f"q{j}" for j in range(self.dice.randint(0, 3))]
        nets = m.inputs + latches
        for j in range(self.dice.randint(0, 4)):
            is_wide = nets and self.dice.random() < 0.1
            m.cells.append(self.wide_cover(nets, f"n{j}") if is_wide else self.cover(self.some(nets, 3), f"n{j}"))
            nets.append(f"n{j}")
        for out in latches:
            kind = self.dice.choice([edge, edge, None])
            control = self.dice.choice(["clk", "clk", "clk", None]) if kind else None
            m.cells.append(Latch(self.dice.choice(nets), out, kind, control, self.dice.choice("0123")))
        self.dice.shuffle(m.cells)
        m.outputs = [net for net in latches if self.dice.random() < 0.8]
        m.outputs += [net for net in nets if net[0] == "n" and self.dice.random() < 0.2]
        if any(isinstance(c, Latch) and c.control for c in m.cells) or self.dice.random() < 0.2:
            self.add_clock(m)
        return m

    def bind(self, sub: Model, avail: list[str], fresh: list[str]) -> list[tuple[str, str]]:
        binds = [(net, "clk" if net == "clk" else self.dice.choice(avail)) for net in sub.inputs]
        binds += [(net, "clk") for net in sub.clocks if net not in sub.inputs]
        binds = [(f, a) for f, a in binds if a != "clk" or self.dice.random() < 0.9]
        binds += list(zip(sub.outputs, fresh))
        self.dice.shuffle(binds)
        return binds

    def above(self, name: str, subs: list[Model], is_root: bool) -> Model:
        m = Model(name, inputs=[f"x{j}" for j in range(self.dice.randint(0, 3))])
        chosen = [self.dice.choice(subs) for _ in range(self.dice.randint(1, 3))]
        fresh = [[f"w{i}{j}" for j in range(len(sub.outputs))] for i, sub in enumerate(chosen)]
        m.cells.append(Cover([], "k", self.dice.choice([[], [("", "1")], [("", "0")]])))
        avail = m.inputs + ["k"] + [net for nets in fresh for net in nets]
        for j in range(self.dice.randint(0, 2)):
            wire = Cover([self.dice.choice(avail)], f"n{j}", self.dice.choice([[("1", "1")], [("0", "0")]]))
            m.cells.append(wire if is_root else self.cover(self.some(avail, 2), f"n{j}"))
            avail.append(f"n{j}")
        m.insts = [(sub.name, self.bind(sub, avail, nets)) for sub, nets in zip(chosen, fresh)]
        likely = [net for net in avail if net[0] == "w" or self.dice.random() < 0.3]
        m.outputs = [net for net in firsts(likely) if is_root or net not in m.inputs][:3]
        if any(actual == "clk" for _, binds in m.insts for _, actual in binds):
            self.add_clock(m)
        return m

    def design(self) -> list[Model]:
        edge = self.dice.choice(["re", "fe"])
        leaves = [self.leaf(f"l{j}", edge) for j in range(self.dice.randint(1, 3))]
        middle = [self.above(f"m{j}", leaves, False) for j in range(self.dice.randint(0, 2))]
        root = self.above("top", leaves + middle, True) if self.dice.random() < 0.9 else self.leaf("top", edge)
        models = [root] + middle + leaves
        for _ in range(self.dice.choice([0, 0, 1, 1, 2, 3])):
            self.spoil(models, self.dice.choice(models))
        return models

    def spoil(self, models: list[Model], m: Model):
        """Puts in what may be a fault."""
        names = m.occurrences() + ["u", "clk"]
        at = self.dice.randint(0, 12)
        net = self.dice.choice(names)
        if at < 3:
            ports = [m.inputs, m.outputs, m.clocks][at]
            ports.insert(self.dice.randint(0, len(ports)), net)
        elif at == 3 and m.inputs:
            m.inputs.remove(self.dice.choice(m.inputs))
        elif at == 4:
            self.dice.shuffle(models)
        elif at == 5:
            m.cells.append(Latch(net, "lq", *self.dice.choice([(None, None), ("re", "clk"), ("fe", net)]), "0"))
        elif at == 6:
            m.cells += [Cover(["l1"], "l2", [("1", "1")]), Cover(["l2"], "l1", [])]
        elif at == 7:
            m.cells.append(self.cover(self.some(names, 2), net))
        elif at == 8 and m.cells:
            self.dice.choice(m.cells).out = net
        elif at > 8 and m.insts:
            self.spoil_instance(models, m, at, net)

    def spoil_instance(self, models: list[Model], m: Model, at: int, net: str):
        i = self.dice.randrange(len(m.insts))
        name, binds = m.insts[i]
        if at == 9:
            m.insts[i] = (self.dice.choice([x.name for x in models] + ["none"]), binds)
        elif binds:
            j = self.dice.randrange(len(binds))
            formal, actual = binds[j]
            if at == 10:
                del binds[j]
            elif at == 11:
                binds.insert(j, (formal, net))
                if self.dice.random() < 0.5:
                    del binds[j + 1]
            else:
                binds[j] = (self.dice.choice(["u", "clk", "i0"]), actual)


def line_of(cell: Cover | Latch) -> list[str]:
    if isinstance(cell, Cover):
        rows = [" ".join(word for word in row if word) for row in cell.rows]
        return [" ".join([".names", *cell.inputs, cell.out]), *rows]
    typed = [cell.kind, cell.control or "NIL"] if cell.kind else []
    return [" ".join([".latch", cell.input, cell.out, *typed, cell.init])]


def text_of(models: list[Model]) -> str:
    lines = []
    for m in models:
        lists = [(".inputs", m.inputs), (".outputs", m.outputs), (".clock", m.clocks)]
        lines += [f".model {m.name}"] + [" ".join([word, *names]) for word, names in lists if names]
        lines += [line for cell in m.cells for line in line_of(cell)]
        lines += [" ".join([".subckt", name, *(f"{f}={a}" for f, a in binds)]) for name, binds in m.insts]
        lines.append(".end")
    return "\n".join(lines) + "\n"


def rows_text(names: list[str], rows: list[list[int]]) -> str:
    lines = [" ".join(names)] + ["".join(map(str, row)) for row in rows]
    return "".join((line or "-") + "\n" for line in lines)


def expected(models: list[Model], root: Model | None, dice: random.Random) -> tuple[str, list, list]:
    """The rows to run, and the output, error line and status that are wanted of `check` and of `strict`."""
    try:
        if root is None:
            raise Refused("NoRoot")
        judge = Judge(models, root)
        whole = judge.run()
    except Refused as fault:
        refused = ["", f"lid: check {fault}\n", 1]
        return "-\n", refused, refused
    names = judge.data_inputs(root)
    rows = [[dice.randint(0, 1) for _ in names] for _ in range(dice.randint(0, 6))]
    outs = simulate(whole, root, [dict(zip(names, row)) for row in rows])
    lines = "".join(line + "\n" for line in report(whole, judge))
    return rows_text(names, rows), [lines, "", 0], [rows_text(root.outputs, outs), "", 0]


def compare(words: list, wanted: list):
    """Runs the program, and stops where it answers otherwise."""
    ran = subprocess.run([program(), *words], capture_output=True, text=True, check=False)
    if [ran.stdout, ran.stderr, ran.returncode] != wanted:
        print(*(Path(word).read_text() for word in words if isinstance(word, Path)), sep="\n")
        print(words, "wanted", wanted, "came", ran, sep="\n")
        sys.exit(1)


def main():
    seed, count = numbers(__doc__, "SEED", "COUNT")
    maker = Maker(seed)
    came = Counter()
    with tempfile.TemporaryDirectory() as folder:
        net, vec = Path(folder, "net.blif"), Path(folder, "rows.vec")
        for _ in range(count):
            models = maker.design()
            names = [m.name for m in models]
            chosen = maker.dice.choice(names + ["nope"]) if maker.dice.random() < 0.3 else None
            root = next((m for m in models if m.name == (chosen or names[0])), None)
            rows, checked, wanted = expected(models, root, maker.dice)
            net.write_text(text_of(models))
            vec.write_text(rows)
            option = ["--root", chosen] if chosen else []
            compare(["check", net] + option, checked)
            compare(["strict", net, vec] + option, wanted)
            came[wanted[1].split()[2] if wanted[2] else "accepted"] += 1
    print(*(f"{count:6} {answer}" for answer, count in came.most_common()), sep="\n")


if __name__ == "__main__":
    main()
