"""An independent reading of docs/ACCEPTANCE.md, docs/MANUAL.md and docs/SYSTEM.md, slow and plain.

It shares no code with the crates. `judge` tells the line of the first condition that applies (all but
the limits), or elaborates; `simulate` gives the strict outputs of what was elaborated; `channels` and
`report` give the channels of its system and what `check` prints; `flat_part` gives a pearl with
numbered nets.
"""

from collections import defaultdict
from dataclasses import dataclass, field


@dataclass
class Cover:
    """`.names`: each row has a character for each input, and all rows have the same output."""

    inputs: list[str]
    out: str
    rows: list[tuple[str, str]]

    def value(self, bits: list[int]) -> int:
        on = self.rows[0][1] == "1" if self.rows else True
        met = any(all(c == "-" or int(c) == bit for c, bit in zip(row, bits)) for row, _ in self.rows)
        return int(met == on)

    def is_wire(self) -> bool:
        """A constant, or a buffer."""
        return not self.inputs or (len(self.inputs) == 1 and self.value([0]) == 0 and self.value([1]) == 1)


@dataclass
class Latch:
    """`.latch`: kind is `re`, `fe` or None; control is None where it is `NIL` or left out."""

    input: str
    out: str
    kind: str | None
    control: str | None
    init: str


@dataclass
class Model:
    name: str
    inputs: list[str] = field(default_factory=list)
    outputs: list[str] = field(default_factory=list)
    clocks: list[str] = field(default_factory=list)
    cells: list[Cover | Latch] = field(default_factory=list)
    insts: list[tuple[str, list[tuple[str, str]]]] = field(default_factory=list)

    def occurrences(self) -> list[str]:
        """The nets at all places, in order."""
        names = self.inputs + self.outputs + self.clocks
        for cell in self.cells:
            if isinstance(cell, Cover):
                names = names + cell.inputs + [cell.out]
            else:
                names = names + [cell.input] + ([cell.control] if cell.control else []) + [cell.out]
        return names + [actual for _, binds in self.insts for _, actual in binds]


class Refused(Exception):
    """The name of a condition and what is told of it."""


class Elaborated:
    """The columns in order, what each reads in the same row, and what gives each its bit."""

    def __init__(self):
        self.columns, self.reads, self.driver = [], defaultdict(list), {}

    def join(self, column, other):
        self.driver[column] = ("same", other)
        self.reads[column].append(other)

    def before(self, column, is_inside=lambda _: True) -> set:
        """The columns from which a walk of an edge or more leads to this one."""
        seen, left = set(), [column]
        while left:
            for other in self.reads[left.pop()]:
                if is_inside(other) and other not in seen:
                    seen.add(other)
                    left.append(other)
        return seen


def firsts(names: list) -> list:
    return list(dict.fromkeys(names))


class Judge:
    def __init__(self, models: list[Model], root: Model):
        self.by_name = {m.name: m for m in models}
        self.root = root
        names = {root.name} | self.below(root)
        self.reached = [m for m in models if m.name in names]

    def below(self, model: Model) -> set[str]:
        """The models to which one or more instances lead."""
        seen, left = set(), [model]
        while left:
            for name, _ in left.pop().insts:
                if name in self.by_name and name not in seen:
                    seen.add(name)
                    left.append(self.by_name[name])
        return seen

    def clock_names(self) -> dict[str, set[str]]:
        clocks = {
            m.name: set(m.clocks) | {c.control for c in m.cells if isinstance(c, Latch) and c.control} for m in self.reached
        }
        while True:
            more = [
                (m.name, actual)
                for m in self.reached
                for name, binds in m.insts
                for formal, actual in binds
                if formal in clocks[name] and actual not in clocks[m.name]
            ]
            if not more:
                return clocks
            for name, net in more:
                clocks[name].add(net)

    def driven_inside(self, m: Model) -> list[str]:
        outs = [a for name, binds in m.insts for f, a in binds if f in self.by_name[name].outputs]
        return [cell.out for cell in m.cells] + outs

    def ports(self, m: Model) -> set[str]:
        return set(m.inputs) | set(m.clocks)

    def read(self, m: Model) -> set[str]:
        cells = [net for c in m.cells for net in (c.inputs if isinstance(c, Cover) else [c.input])]
        actuals = [a for name, binds in m.insts for f, a in binds if f in self.data_inputs(self.by_name[name])]
        return set(m.outputs) | set(cells) | set(actuals)

    def data_inputs(self, m: Model) -> list[str]:
        return [net for net in m.inputs if net not in self.clocks[m.name]]

    def run(self) -> Elaborated:
        self.judge_names()
        self.judge_instances()
        self.clocks = self.clock_names()
        self.judge_bound()
        self.judge_nets()
        self.judge_clocks()
        self.judge_root()
        whole = Elaborated()
        self.elaborate(whole, self.root, (), {})
        self.judge_loops(whole)
        self.judge_pearls(whole)
        return whole

    def judge_names(self):
        for m in self.reached:
            for net in m.occurrences():
                twice = max(names.count(net) for names in (m.inputs, m.outputs, m.clocks)) > 1
                both = m is not self.root and net in m.outputs and net in self.ports(m)
                if twice or both:
                    raise Refused(f"DuplicateName {m.name} {net}")

    def judge_instances(self):
        for m in self.reached:
            for i, (name, _) in enumerate(m.insts):
                if name not in self.by_name:
                    raise Refused(f"UnknownModel {m.name} {i} {name}")
        for m in self.reached:
            if m.name in self.below(m):
                raise Refused(f"Recursive {m.name}")
        for m in self.reached:
            for i, (name, binds) in enumerate(m.insts):
                for formal, _ in binds:
                    if formal not in self.ports(self.by_name[name]) | set(self.by_name[name].outputs):
                        raise Refused(f"UnknownFormal {m.name} {i} {formal}")
        for m in self.reached:
            for i, (_, binds) in enumerate(m.insts):
                formals = [formal for formal, _ in binds]
                for formal in formals:
                    if formals.count(formal) > 1:
                        raise Refused(f"FormalTwice {m.name} {i} {formal}")

    def judge_bound(self):
        for m in self.reached:
            for i, (name, binds) in enumerate(m.insts):
                for net in self.data_inputs(self.by_name[name]):
                    if net not in dict(binds):
                        raise Refused(f"Unbound {m.name} {i} {net}")

    def judge_nets(self):
        for m in self.reached:
            drivers = list(self.ports(m)) + self.driven_inside(m)
            for net in m.occurrences():
                if drivers.count(net) > 1:
                    raise Refused(f"TwoDrivers {m.name} {net}")
        for m in self.reached:
            drivers = self.ports(m) | set(self.driven_inside(m))
            for net in m.occurrences():
                if net in self.read(m) and net not in drivers:
                    raise Refused(f"Undriven {m.name} {net}")

    def judge_clocks(self):
        for m in self.reached:
            used = self.read(m) | set(self.driven_inside(m))
            for net in m.occurrences():
                if net in self.clocks[m.name] and (net not in self.ports(m) or net in used):
                    raise Refused(f"ClockUse {m.name} {net}")
        ports = firsts(self.root.inputs + self.root.clocks)
        clocks = [net for net in ports if net in self.clocks[self.root.name]]
        if len(clocks) > 1:
            raise Refused(f"TwoClocks {clocks[0]} {clocks[1]}")
        typed = [(m, c) for m in self.reached for c in m.cells if isinstance(c, Latch) and c.kind]
        for m, latch in typed:
            if latch.kind != typed[0][1].kind:
                raise Refused(f"MixedEdges {m.name} {latch.out}")

    def judge_root(self):
        for cell in self.root.cells if self.root.insts else []:
            if isinstance(cell, Latch) or not cell.is_wire():
                raise Refused(f"RootLogic {cell.out}")

    def elaborate(self, whole: Elaborated, m: Model, path: tuple[int, ...], bound: dict[str, str]):
        nets = firsts(m.occurrences())
        whole.columns += [(path, net) for net in nets if net not in self.clocks[m.name]]
        for net in self.data_inputs(m):
            if path:
                whole.join((path, net), (path[:-1], bound[net]))
            else:
                whole.driver[path, net] = ("given", net)
        for cell in m.cells:
            column = (path, cell.out)
            if isinstance(cell, Cover):
                whole.driver[column] = ("made", cell, [(path, net) for net in cell.inputs])
                whole.reads[column] += [(path, net) for net in cell.inputs]
            else:
                whole.driver[column] = ("held", int(cell.init == "1"), (path, cell.input))
        for i, (name, binds) in enumerate(m.insts):
            sub = self.by_name[name]
            for formal, actual in binds:
                if formal in sub.outputs:
                    whole.join((path, actual), (path + (i,), formal))
            self.elaborate(whole, sub, path + (i,), dict(binds))

    def judge_loops(self, whole: Elaborated):
        for path, net in sorted(whole.columns, key=lambda column: column[0]):
            if (path, net) in whole.before((path, net)):
                raise Refused(f"CombLoop {'/'.join(map(str, path)) or '-'} {net}")

    def judge_pearls(self, whole: Elaborated):
        pearls = [((i,), self.by_name[name]) for i, (name, _) in enumerate(self.root.insts)]
        for path, m in pearls or [((), self.root)]:
            for out in m.outputs:
                before = whole.before((path, out), lambda column: column[0][: len(path)] == path)
                for net in self.data_inputs(m):
                    if net == out or (path, net) in before:
                        raise Refused(f"OutputFromInput {m.name} {out} {net}")


def settle(whole: Elaborated, row: dict[str, int], before: dict | None) -> dict:
    """The bit of each column in a row, from those of the row before; None is no row before."""
    now = {}

    def bit(column):
        if column not in now:
            kind, *what = whole.driver[column]
            if kind == "given":
                now[column] = row[what[0]]
            elif kind == "same":
                now[column] = bit(what[0])
            elif kind == "held":
                now[column] = what[0] if before is None else before[what[1]]
            else:
                now[column] = what[0].value([bit(other) for other in what[1]])
        return now[column]

    for column in whole.driver:
        bit(column)
    return now


def simulate(whole: Elaborated, root: Model, rows: list[dict[str, int]]) -> list[list[int]]:
    """The bits of the root's outputs in each row."""
    outs, before = [], None
    for row in rows:
        before = settle(whole, row, before)
        outs.append([before[(), net] for net in root.outputs])
    return outs


def pearls(judge: Judge) -> list[tuple[tuple[int, ...], Model]]:
    """The path and the model of each pearl."""
    insts = [((i,), judge.by_name[name]) for i, (name, _) in enumerate(judge.root.insts)]
    return insts or [((), judge.root)]


def ports(judge: Judge) -> dict[tuple, tuple[int, int]]:
    """The port of a column: the node that has it, and its place among the ports of that node."""
    found = {((), net): (0, j) for j, net in enumerate(judge.data_inputs(judge.root))}
    if judge.root.insts:
        shells = enumerate(pearls(judge), 1)
        found |= {(path, net): (i, j) for i, (path, m) in shells for j, net in enumerate(m.outputs)}
    return found


def source_of(whole: Elaborated, named: dict, column: tuple) -> tuple[int, int] | bool:
    """The port or the bit of the constant that a column outside the pearls is led back to."""
    while column not in named:
        kind, *what = whole.driver[column]
        if kind == "made" and not what[0].inputs:
            return bool(what[0].value([]))
        column = what[0] if kind == "same" else what[1][0]
    return named[column]


def consumers(whole: Elaborated, judge: Judge) -> list[list]:
    """For each shell and then for the sink, what each of its inputs is led back to."""
    if not judge.root.insts:
        given = [(0, j) for j in range(len(judge.data_inputs(judge.root)))]
        return [given, [(1, j) for j in range(len(judge.root.outputs))]]
    named = ports(judge)
    shells = [
        [source_of(whole, named, whole.driver[path, net][1]) for net in judge.data_inputs(m)] for path, m in pearls(judge)
    ]
    return shells + [[source_of(whole, named, ((), net)) for net in judge.root.outputs]]


def channels(whole: Elaborated, judge: Judge) -> list[tuple[int, int, int, list[int]]]:
    """Each channel with its producer, its consumer, its piece and the ports of the producer in it."""
    read = {(port[0], to, port[1]) for to, ins in enumerate(consumers(whole, judge), 1) for port in ins if type(port) is tuple}
    found = []
    for a, b in sorted({(a, b) for a, b, _ in read}):
        these = sorted(j for x, y, j in read if (x, y) == (a, b))
        found += [(a, b, k // 31, these[k : k + 31]) for k in range(0, len(these), 31)]
    return found


def report(whole: Elaborated, judge: Judge) -> list[str]:
    """The lines of `check`."""
    last = len(pearls(judge)) + 1
    node = lambda i: "in" if i == 0 else "out" if i == last else f"u{i - 1}"
    latches = [c.init for m in each_model(judge, judge.root) for c in m.cells if isinstance(c, Latch)]
    found = channels(whole, judge)
    counts = [
        ("shells", last - 1),
        ("inputs", len(judge.data_inputs(judge.root))),
        ("outputs", len(judge.root.outputs)),
        ("latches", len(latches)),
        ("defaulted", sum(init in "23" for init in latches)),
        ("channels", len(found)),
    ]
    lines = [f"{word} {count}" for word, count in counts]
    return [f"root {judge.root.name}", *lines] + [f"channel {node(a)} {node(b)} {k} ports {len(js)}" for a, b, k, js in found]


def each_model(judge: Judge, m: Model) -> list[Model]:
    """The model of each instance from one of this model on."""
    return [m] + [below for name, _ in m.insts for below in each_model(judge, judge.by_name[name])]


def flat_part(whole: Elaborated, judge: Judge, pearl: int) -> dict:
    """A pearl with its columns numbered in order: inputs, outputs, latches, and covers by their outputs.

    A column that is bound to another is a buffer of it, told as `same`.
    """
    path, m = pearls(judge)[pearl]
    inside = [column for column in whole.columns if column[0][: len(path)] == path]
    number = {column: k for k, column in enumerate(inside)}
    ins = [number[path, net] for net in judge.data_inputs(m)]
    latches, covers = [], []
    for column in inside:
        kind, *what = whole.driver[column]
        if number[column] in ins:
            continue  # the pearl does not see what drives its inputs
        if kind == "held":
            latches.append((number[what[1]], number[column], what[0]))
        elif kind == "same":
            covers.append((number[column], [number[what[0]]], "same"))
        else:
            covers.append((number[column], [number[other] for other in what[1]], what[0].rows))
    return {
        "nets": len(inside),
        "ins": ins,
        "outs": [number[path, net] for net in m.outputs],
        "latches": latches,
        "covers": covers,
    }
