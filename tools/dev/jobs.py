#!/usr/bin/env python3
"""Runs random jobs of all commands, half of them faulty, and compares status, output and error line with the slow
readings of the other tools.

    tools/dev/jobs.py SEED COUNT

Each design is drawn by compare.py (with and without faults of its own) or made by the generator. A faulty job has one
fault more: a file that is missing, words that are no job, a line of a text that is against its rules, a row too wide, an
actor or a channel that is not there, a certificate with another number, a dump that is cut off. It stops at the first
difference.
"""

import sys
import tempfile
from pathlib import Path

from arguments import numbers
from clocks import Run, draw_stalls
from compare import Maker, rows_text, text_of
from emits import Wrapped, refusal, size_of, wanted_rows
from frees import alone, flaw, settle_cycles
from gen import Draws
from generated import design
from margins import System, sizes_of
from rates import Session, components, is_certified, lags, least_ratio, marking, read_cert, spoil
from reference import Judge, Refused, channels, pearls, report, simulate
from walks import Machine
from waves import shown

USAGE = ("", "lid: usage\n", 2)
COMMANDS = ["check", "strict", "clock", "walk", "free", "wave", "unwave", "place", "rate", "verify", "slack", "size", "emit", "gen"]


class Job:
    """A design that is accepted, its stations and its rows."""

    def __init__(self, session: Session, models: list, judge: Judge, whole):
        self.session, self.dice, self.judge, self.whole = session, session.dice, judge, whole
        self.chans, self.nodes = channels(whole, judge), len(pearls(judge)) + 2
        name = lambda v: "in" if v == 0 else "out" if v == self.nodes - 1 else f"u{v - 1}"
        self.named = [f"{name(a)} {name(b)} {piece}" for a, b, piece, _ in self.chans]
        self.net, self.files = session.files["net"], session.files
        self.net.write_text(text_of(models))
        self.relays, self.caps = session.draw_stations(self.named)
        self.placed = ["--stations", self.files["stations"]]
        self.ins, self.outs = judge.data_inputs(judge.root), judge.root.outputs
        self.rows = [[self.dice.randint(0, 1) for _ in self.ins] for _ in range(self.dice.choice([0, 1, 2, 5, 9]))]
        self.files["rows"].write_text(rows_text(self.ins, self.rows))

    def strict_text(self) -> str:
        return rows_text(self.outs, simulate(self.whole, self.judge.root, [dict(zip(self.ins, row)) for row in self.rows]))

    def run(self, stalls=None) -> Run:
        return Run(self.judge, self.whole, self.chans, self.relays, self.caps, self.rows, stalls)

    def told(self, words: list, out: str):
        self.session.want(self.session.run(*words), (out, "", 0), " ".join(map(str, words)))

    def faulty(self, words: list, files: list[str]):
        """One fault more: what is wanted is the line of that fault alone."""
        dice = self.dice
        kind = dice.choice(["missing", "usage", "text"])
        if kind == "usage":
            cut = [words[:-1] if words[-1] != "--tally" else words[:1], [*words, "--none", "1"], [*words[:1], "-", *words[1:], "more", "files"]]
            broken = dice.choice(cut[1:]) if words[0] in ("check", "rate", "size", "slack", "emit") and words[-2:-1] != ["--stations"] else dice.choice(cut)
            return self.session.want(self.session.run(*broken), USAGE, " ".join(map(str, broken)))
        name = dice.choice(files)
        if kind == "missing":
            gone = self.net.with_name("gone")
            broken = [gone if word == self.files[name] else word for word in words]
            return self.session.want(self.session.run(*broken), ("", f"lid: read {gone}\n", 3), " ".join(map(str, broken)))
        text = self.files[name].read_text()
        spoilt, line = self.spoil_text(name, text)
        self.files[name].write_text(spoilt)
        self.session.want(self.session.run(*words), ("", f"lid: {line}\n", 1), f"{line}: " + " ".join(map(str, words)))

    def spoil_text(self, name: str, text: str) -> tuple[str, str]:
        dice, lines = self.dice, text.splitlines()
        end, last = len(lines) + 1, "\n".join([*lines, ""])
        two = lines[0].endswith(" 2") if lines else False
        caps = " 2 2" if two else ""
        told = {
            "net": [(last + ".gate nand2 A=a\n", f"blif NoModel {end}"), (last + "\x80\n", f"blif BadByte {end}"), (last + ".model " + "m" * 1025 + "\n", f"blif NameTooLong {end}")],
            "stations": [(last + "u0 u1\n", f"stations Word {end}"), (last + f"u{self.nodes} out 0 1{caps}\n", f"stations NoChannel {end}")],
            "wires": [(last + "u0 u1 0\n", f"stations Word {end}"), (last + f"u{self.nodes} out 0 7\n", f"stations NoChannel {end}")],
            "rows": [(last + "0" * (len(self.ins) + 1) + "\n", f"rows {'Width' if self.ins else 'Char'} {end}"), (last + "x" * max(1, len(self.ins)) + "\n", f"rows Char {end}"), ("no-such-column\n" + "\n".join(lines[1:]), "rows Header")],
            "schedule": [(last + "0 x\n", f"schedule Word {end}"), (last + "999999\n", f"schedule NoActor {end}")],
            "stalls": [(last + "7\n", f"stalls Word {end}"), ("lid-stalls 1\n9 in\n3 out\n", "stalls Order 3")],
            "cert": [("lid-cert 2\n" + "\n".join(lines[1:]), "cert Word 1"), (last + "part\n", f"cert Word {end}")],
            "dump": [("\n".join(lines[:3]) + "\n", f"vcd Word {min(3, len(lines))}"), (last + "#0\n", f"vcd Word {end}")],
        }
        free = [c for c in self.named if not any(line.startswith(c + " ") for line in lines)]
        if name == "stations" and free:
            told["stations"] += [(last + f"{free[0]} 65{' 2' * 66 if two else ''}\n", f"stations TooMany {end}")]
            told["stations"] += [(last + f"{free[0]} 0 17\n", f"stations Capacity {end}")] if two else []
        if name in ("stations", "wires") and len(lines) > 1:
            told[name] += [(last + lines[1] + "\n", f"stations Twice {end}")]
        if name == "wires" and free:
            told["wires"] += [(last + f"{free[0]} 0\n", f"stations ZeroLength {end}")]
        return dice.choice(told[name])

    # each command: its words, which of its files may be spoilt, and what it prints
    def check(self):
        return ["check", self.net], ["net"], lambda words: self.told(words, "".join(line + "\n" for line in report(self.whole, self.judge)))

    def strict(self):
        return ["strict", self.net, self.files["rows"]], ["net", "rows"], lambda words: self.told(words, self.strict_text())

    def clock(self):
        words, files, stalls = ["clock", self.net, self.files["rows"], *self.placed], ["net", "rows", "stations"], None
        trace = self.dice.choice([None, 1, 30])
        words += [] if trace is None else ["--trace", str(trace)]
        if self.dice.random() < 0.3:
            stalls = draw_stalls(self.session)
            words, files = [*words, "--stalls", self.files["stalls"]], [*files, "stalls"]
        elif self.dice.random() < 0.3:
            words += ["--workers", str(self.dice.choice([1, 2, 5]))]
        return words, files, lambda words: self.told(words, self.strict_text() + "".join(line + "\n" for line in self.run(stalls).told(trace)))

    def walk(self):
        run = self.run()
        machine = Machine(run)
        schedule = [self.dice.randrange(len(machine.fired)) for _ in range(self.dice.choice([0, 5, 60]))]
        self.files["schedule"].write_text(" ".join(map(str, schedule)) + "\n")
        words = ["walk", self.net, self.files["rows"], "--schedule", self.files["schedule"], *self.placed]

        def told(words):
            lines = "".join(f"{v} {machine.step(v)}\n" for v in schedule)
            given = run.table[: machine.fired[self.nodes - 1]]
            self.told(words, lines + rows_text(self.outs, [[row[(), net] for net in self.outs] for row in given]))

        return words, ["net", "rows", "stations", "schedule"], told

    def free(self):
        workers, rounds, tally = self.dice.choice([1, 2, 3]), self.dice.choice([0, 1, 5, 50]), self.dice.random() < 0.5
        words = ["free", self.net, self.files["rows"], *self.placed, "--workers", str(workers), "--rounds", str(rounds)]

        def told(words):
            if not tally:
                return self.told(words, self.strict_text())
            run, strict = self.run(), self.strict_text()
            machine = Machine(run)
            out, err, status = self.session.run(*words, "--tally")
            self.session.want((out[: len(strict)], err, status), (strict, "", 0), "free --tally")
            lines = out[len(strict) :].splitlines()
            most = [machine.cap(v) for v in range(len(machine.fired))]
            self.session.want(flaw(lines, most, len(self.rows), workers, rounds, settle_cycles(run)), None, "tallies " + out)
            if workers == 1:
                self.session.want(lines, alone(run, rounds), "tallies of one worker")

        return words, ["net", "rows", "stations"], told

    def wave(self):
        trace = self.dice.choice([1, 12])
        words = ["wave", self.net, self.files["rows"], *self.placed, "--trace", str(trace)]

        def told(words):
            out, err, status = self.session.run(*words)
            lines = self.run().told(trace)
            at = next(k for k, line in enumerate(lines) if line.startswith("trace "))
            self.session.want((shown(out.encode()), err, status), ("\n".join(lines[at:]), "", 0), "wave")

        return words, ["net", "rows", "stations"], told

    def unwave(self):
        out, _, _ = self.session.run("wave", self.net, self.files["rows"], *self.placed, "--trace", "5")
        self.files["dump"].write_text(out)
        return ["unwave", self.files["dump"]], ["dump"], lambda words: self.told(words, shown(out.encode()) + "\n")

    def place(self):
        reach, wires = self.dice.randint(1, 9), [self.dice.randint(1, 60) for _ in self.named]
        listed = [f"{name} {length}" for name, length in zip(self.named, wires) if length > reach or self.dice.random() < 0.8]
        self.files["wires"].write_text("\n".join(["lid-wires 1", *listed]) + "\n")
        wanted = "lid-stations 1\n" + "".join(f"{name} {-(-length // reach) - 1}\n" for name, length in zip(self.named, wires))
        return ["place", self.net, "--wires", self.files["wires"], "--reach", str(reach)], ["net", "wires"], lambda words: self.told(words, wanted)

    def graph(self):
        return marking(self.nodes, self.chans, self.relays, self.caps)

    def rate(self):
        def told(words):
            count, edges = self.graph()
            cert, err, status = self.session.run(*words)
            parts = read_cert(cert)
            self.session.want((err, status, is_certified(count, edges, parts)), ("", 0, True), "rate")
            for part, inside in zip(parts, components(count, edges), strict=True):
                own = [edge for edge in edges if edge[0] in inside]
                ratio = least_ratio(inside, own)
                self.session.want(part["ratio"], [ratio.numerator, ratio.denominator], "ratio")
                lag = lags(inside, own, ratio.numerator, ratio.denominator)
                self.session.want([row[:2] for row in part["nodes"]], [[v, lag[v]] for v in inside], "lags")

        return ["rate", self.net, *self.placed], ["net", "stations"], told

    def verify(self):
        cert, _, _ = self.session.run("rate", self.net, *self.placed)
        cert = spoil(cert, self.dice) if self.dice.random() < 0.5 else cert
        self.files["cert"].write_text(cert)

        def told(words):
            count, edges = self.graph()
            parts, wanted = read_cert(cert), ("", "lid: not a certificate\n", 6)
            if is_certified(count, edges, parts):
                lag = next(row[1] for part in parts for row in part["nodes"] if row[0] == self.nodes - 1)
                lines = [f"part {i} ratio {part['ratio'][0]}/{part['ratio'][1]}" for i, part in enumerate(parts)]
                wanted = ("\n".join(["certificate ok", *lines, f"sink lag {lag}"]) + "\n", "", 0)
            self.session.want(self.session.run(*words), wanted, "verify")

        return ["verify", self.net, self.files["cert"], *self.placed], ["net", "cert", "stations"], told

    def slack(self):
        def told(words):
            out, err, status = self.session.run(*words)
            self.session.want((len(out.splitlines()), err, status), (len(self.named), "", 0), "slack")
            system = System(self.judge, self.whole)
            for c in range(min(1, len(self.named))) if len(self.caps) < 9 else ():
                self.session.want(out.splitlines()[c] + "\n", system.slack_line(self.relays, self.caps, c), "slack")

        return ["slack", self.net, *self.placed], ["net", "stations"], told

    def size(self):
        def told(words):
            out, err, status = self.session.run(*words)
            self.session.want((err, status), ("", 0), "size")
            if not out.startswith("short ") and len(self.caps) < 14:
                system, caps = System(self.judge, self.whole), sizes_of(out)
                wanted = system.ratios(self.relays, [16] * len(caps), forward=True)
                self.session.want(system.reaches(self.relays, caps, wanted), True, "size " + out)
                lowered = [[c - (s == t) for t, c in enumerate(caps)] for s in range(len(caps)) if caps[s] > 2]
                self.session.want([low for low in lowered if system.reaches(self.relays, low, wanted)], [], "size, lower " + out)

        return ["size", self.net, *self.placed], ["net", "stations"], told

    def emit(self):
        def told(words):
            text, err, status = self.session.run(*words)
            line = refusal(self.judge, size_of(self.judge, self.chans, self.relays, self.caps))
            self.session.want((err, status), (line or "", 1 if line else 0), "emit")
            if line:
                return
            rows = [[self.dice.randint(0, 1) for _ in self.ins] + [int(self.dice.random() < 0.7), int(self.dice.random() < 0.3)] for _ in range(8)]
            self.files["emitted"].write_text(text)
            self.files["rows"].write_text(rows_text([*self.ins, "li_in_valid", "li_out_stop"], rows))
            wanted = wanted_rows(self.judge, self.whole, Wrapped(self.nodes, self.chans, self.relays, self.caps), rows)
            self.told(["strict", self.files["emitted"], self.files["rows"]], rows_text([*self.outs, "li_out_valid", "li_in_stop"], wanted))

        return ["emit", self.net, *self.placed], ["net", "stations"], told


def gen_job(session: Session):
    seed, shells = session.dice.randrange(1 << 20), session.dice.choice([0, 1, 2, 7, 30, 2001])
    words = ["gen", str(seed), "--shells", str(shells)]
    wanted = ("", f"lid: gen Size {shells}\n", 1) if shells in (0, 2001) else (text_of(design(Draws(seed), shells)), "", 0)
    session.want(session.run(*words), wanted, " ".join(words))
    session.came["gen, " + ("faulty" if wanted[2] else "sound")] += 1


def refused_job(session: Session, models: list, fault: Refused):
    """A command whose design is refused says so, whatever its other files are."""
    session.files["net"].write_text(text_of(models))
    command = session.dice.choice([c for c in COMMANDS if c not in ("unwave", "gen")])
    more = {"strict": ["r"], "clock": ["r"], "free": ["r"], "walk": ["r", "--schedule", "s"], "wave": ["r", "--trace", "3"], "place": ["--wires", "w", "--reach", "1"], "verify": ["c"]}
    words = [command, session.files["net"], *more.get(command, [])]
    session.want(session.run(*words), ("", f"lid: check {fault}\n", 1), " ".join(map(str, words)))
    session.came[command + ", faulty"] += 1


def one_job(session: Session, maker: Maker):
    dice, command = maker.dice, maker.dice.choice(COMMANDS)
    if command == "gen":
        return gen_job(session)
    models = maker.design() if dice.random() < 0.7 else design(Draws(dice.randrange(1 << 30)), dice.randint(1, 5))
    try:
        judge = Judge(models, models[0])
        whole = judge.run()
    except Refused as fault:
        return refused_job(session, models, fault)
    job = Job(session, models, judge, whole)
    words, files, told = getattr(job, command)()
    if dice.random() < 0.3:
        job.faulty(words, files)
        session.came[command + ", faulty"] += 1
    else:
        told(words)
        session.came[command + ", sound"] += 1


def main():
    seed, count = numbers(__doc__, "SEED", "COUNT")
    maker = Maker(seed)
    with tempfile.TemporaryDirectory() as folder:
        session = Session(folder, maker.dice)
        session.files |= {name: Path(folder, name) for name in ("rows", "dump", "stalls", "schedule", "emitted")}
        for _ in range(count):
            one_job(session, maker)
    faulty = sum(many for what, many in session.came.items() if what.endswith("faulty"))
    print(*(f"{many:7} {what}" for what, many in sorted(session.came.items())), sep="\n")
    print(f"{faulty} of {sum(session.came.values())} were faulty")


if __name__ == "__main__":
    main()
