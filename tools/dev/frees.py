#!/usr/bin/env python3
"""Compares `lid free` with strict tables and with sweeps of the slow interleaving machine of walks.py.

    tools/dev/frees.py SEED COUNT

A ring, a diamond, a pipeline, COUNT random designs and as many generated ones of 1 to 12 shells, with random stations
and rows, are run by 1 to 8 and 64 workers with 0, 1, 2 and 1,000 rounds: the rows must be the strict rows, the tallies
lawful, and with one worker those of the machine's sweeps, to the last number. It stops at the first difference.

    tools/dev/frees.py again NET VEC STATIONS WORKERS ROUNDS TIMES

runs one design so often, looks at the tallies of each run, and says how many firings the parallel phase had.
"""

import subprocess
import sys
import tempfile
from pathlib import Path

from arguments import numbers, parser_of
from clocks import Run
from compare import Maker, rows_text, text_of
from gen import Draws
from generated import design
from program import program
from rates import Session
from reference import Judge, Refused, channels, pearls
from walks import Machine, diamond, pipeline, ring

WORDS = ["turns", "fired", "voids", "stops", "dones"]
WORKERS = [1, 2, 3, 4, 5, 6, 7, 8, 64]
ROUNDS = [0, 1, 2, 1000]


def turn(machine: Machine, v: int) -> str:
    """Steps of an actor until it is at rest, and how they ended."""
    while True:
        word = machine.step(v)
        if machine.position[v] == 0:
            return "fired" if word.endswith("fired") else word.split()[0] + "s"


def sweep(machine: Machine) -> dict[str, int]:
    told = dict.fromkeys(WORDS, 0)
    for v in range(len(machine.fired)):
        told["turns"] += 1
        told[turn(machine, v)] += 1
    return told


def is_settled(machine: Machine) -> bool:
    return all(fired == machine.cap(v) for v, fired in enumerate(machine.fired))


def alone(run: Run, rounds: int) -> list[str]:
    """What one worker and the sweeps after it tell."""
    machine, sums, finish = Machine(run), dict.fromkeys(WORDS, 0), [0, 0]
    for _ in range(rounds if run.rows else 0):
        for word, count in sweep(machine).items():
            sums[word] += count
    while not is_settled(machine):
        finish = [finish[0] + 1, finish[1] + sweep(machine)["fired"]]
    tally = " ".join(f"{word} {sums[word]}" for word in WORDS)
    return [f"worker 0 {tally}", f"finish {finish[0]} fired {finish[1]}"]


def settle_cycles(run: Run) -> int:
    """After how many cycles of the clocked run each actor is at its cap."""
    machine = Machine(run)
    caps = [machine.cap(v) for v in range(len(machine.fired))]
    now, cycles = [0] * len(caps), 0
    while now != caps:
        now = [min([caps[v], *(now[a] + m for a, b, m in run.edges if b == v)]) for v in range(len(caps))]
        cycles += 1
    return cycles


def flaw(lines: list[str], caps: list[int], rows: int, workers: int, rounds: int, settle: int | None) -> str | None:
    """What is not lawful in tallies."""
    if len(lines) != workers + 1:
        return "lines"
    fired = 0
    for number, line in enumerate(lines[:-1]):
        words = line.split()
        if words[:2] != ["worker", str(number)] or words[2::2] != WORDS:
            return f"form of worker {number}"
        turns, *ends = map(int, words[3::2])
        own = caps[number::workers]
        if turns != sum(ends) or turns != (rounds * len(own) if rows else 0):
            return f"turns of worker {number}"
        if ends[0] > sum(own) or ends[3] > sum(max(rounds - cap, 0) for cap in own):
            return f"firings or dones of worker {number}"
        fired += ends[0]
    words = lines[-1].split()
    if words[0::2] != ["finish", "fired"]:
        return "form of the end"
    sweeps, last = map(int, words[1::2])
    if fired + last != sum(caps) or sweeps > last or (settle is not None and sweeps > settle):
        return "the end"
    return None


def compare_free(session: Session, models: list, judge: Judge, whole):
    chans, nodes = channels(whole, judge), len(pearls(judge)) + 2
    name = lambda v: "in" if v == 0 else "out" if v == nodes - 1 else f"u{v - 1}"
    relays, caps = session.draw_stations([f"{name(a)} {name(b)} {piece}" for a, b, piece, _ in chans])
    names = judge.data_inputs(judge.root)
    rows = [[session.dice.randint(0, 1) for _ in names] for _ in range(session.dice.choice([0, 1, 2, 9, 40]))]
    session.files["net"].write_text(text_of(models))
    session.files["rows"].write_text(rows_text(names, rows))
    run = Run(judge, whole, chans, relays, caps, rows)
    machine = Machine(run)
    most = [machine.cap(v) for v in range(len(machine.fired))]
    settle = settle_cycles(run)
    strict = rows_text(judge.root.outputs, [[row[(), net] for net in judge.root.outputs] for row in run.table])
    words = ["free", session.files["net"], session.files["rows"], "--stations", session.files["stations"]]
    for workers in WORKERS:
        for rounds in ROUNDS:
            further = ["--workers", str(workers), "--rounds", str(rounds)]
            what = " ".join(map(str, [*words, *further]))
            session.want(session.run(*words, *further), (strict, "", 0), what)
            told, _, status = session.run(*words, *further, "--tally")
            session.want((told[: len(strict)], status), (strict, 0), what + " --tally")
            lines = told[len(strict) :].splitlines()
            session.want(flaw(lines, most, len(rows), workers, rounds, settle), None, what + " --tally\n" + told)
            if workers == 1:
                session.want(lines, alone(run, rounds), what + " --tally")
            session.came[f"{workers} workers"] += 1


def run_again(net: str, vec: str, stations: str, workers: int, rounds: int, times: int):
    parallel = []
    for _ in range(times):
        words = [program(), "free", net, vec, "--stations", stations, "--workers", str(workers), "--rounds", str(rounds), "--tally"]
        told = subprocess.run(words, capture_output=True, text=True, check=True).stdout
        lines = [line for line in told.splitlines() if line.startswith(("worker ", "finish "))]
        count = [int(word) for line in lines for word in line.split()[1:] if word.isdigit()]
        workers_said = [dict(zip(line.split()[2::2], map(int, line.split()[3::2]))) for line in lines[:-1]]
        if any(tally["turns"] != sum(tally[word] for word in WORDS[1:]) for tally in workers_said) or len(lines) != workers + 1:
            sys.exit("not lawful:\n" + "\n".join(lines))
        fired = sum(tally["fired"] for tally in workers_said)
        parallel.append((fired, count[-1]))
    if len({fired + last for fired, last in parallel}) != 1:
        sys.exit(f"firings differ: {parallel}")
    print(f"{times} runs, {sum(parallel[0])} firings each, in the parallel phase {min(parallel)[0]} to {max(parallel)[0]}")


def main():
    if sys.argv[1:2] == ["again"]:
        parser = parser_of(__doc__)
        for name in ("again", "NET", "VEC", "STATIONS"):
            parser.add_argument(name)
        for name in ("WORKERS", "ROUNDS", "TIMES"):
            parser.add_argument(name, type=int)
        return run_again(*list(vars(parser.parse_args()).values())[1:])
    seed, count = numbers(__doc__, "SEED", "COUNT")
    maker = Maker(seed)
    with tempfile.TemporaryDirectory() as folder:
        session = Session(folder, maker.dice)
        session.files |= {"rows": Path(folder, "rows")}
        known = [ring(), diamond(), pipeline()]
        made = [maker.design() for _ in range(count)] + [design(Draws(n), 1 + n % 12) for n in range(count)]
        for models in [*known, *made]:
            try:
                judge = Judge(models, models[0])
                whole = judge.run()
            except Refused:
                continue
            compare_free(session, models, judge, whole)
    print(*(f"{count:8} {what}" for what, count in session.came.items()), sep="\n")


if __name__ == "__main__":
    main()
