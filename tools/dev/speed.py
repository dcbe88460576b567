#!/usr/bin/env python3
"""Measures the program, and prints the tables of docs/SPEED.md.

    tools/dev/speed.py each      each command on small, middle and the largest legal designs
    tools/dev/speed.py growth    each command on designs of which each is twice the one before

With `--before LID` another build of the program, as an earlier release, is run in turns with this one, and stands in
brackets; `--program LID` is measured in place of the program of this tree. With WORD those designs alone are taken whose
names have it.

A time is the processor's (user and system) of a whole program, the least of three (of one where it took more than ten
seconds), and memory is its peak. ~ says that a run took more than a minute, or a compilation more than two. Beside
`check` and `strict` stand ABC (reading the flattened netlist; 32 random runs of as many rows at once), Icarus Verilog and
Verilator (the same netlist, as Yosys writes it, and the same rows, of which they must tell what `strict` tells), beside
`clock` both run the emitted netlist over as many cycles, and beside `rate` HowardMmc of LEMON finds one ratio of the same
marked graph. Compilations are rows of their own. A cell is empty where a tool is not there or fails, or where nothing is
to be run; a program that crashes ends the run.
"""

import os
import random
import re
import shutil
import signal
import subprocess
import sys
import tempfile
import threading
from itertools import product
from pathlib import Path
from typing import Callable, NamedTuple

from arguments import absolute, parser_of
from emits_others import clocked
from program import program
from rates import marking
from verilog import listed

EXAMPLES = Path(__file__).resolve().parents[2] / "examples"
LIMIT, BUILD_LIMIT = 60, 120
TIME = shutil.which("time")
LEMON = r"""
#include <lemon/howard_mmc.h>
#include <lemon/smart_graph.h>
#include <iostream>
int main() {
    int nodes, edges;
    std::cin >> nodes >> edges;
    lemon::SmartDigraph g;
    std::vector<lemon::SmartDigraph::Node> at;
    for (int v = 0; v < nodes; v++) at.push_back(g.addNode());
    lemon::SmartDigraph::ArcMap<int> cost(g);
    for (int k = 0; k < edges; k++) { int a, b, m; std::cin >> a >> b >> m; cost[g.addArc(at[a], at[b])] = m; }
    lemon::HowardMmc<lemon::SmartDigraph, lemon::SmartDigraph::ArcMap<int>> mmc(g, cost);
    mmc.run();
    std::cout << mmc.cycleCost() << ' ' << mmc.cycleSize() << '\n';
}
"""
ICARUS, VERILATOR, ABC = "by Icarus Verilog", "by Verilator", "by ABC"


class Took(NamedTuple):
    """The processor's seconds of a run, and its peak of memory in megabytes; both are past all where it was ended."""

    seconds: float
    megabytes: float


ENDED = Took(float("inf"), float("inf"))


def once(words: list, given: Path | None = None, out: Path | None = None, limit: int = LIMIT, weighed: bool = False) -> Took | None:
    """A run, or nothing where it is refused; what it held is told by GNU time, since what waits for a process counts what
    itself held when it began that."""
    with open(given or os.devnull) as read, open(out or os.devnull, "w") as told, tempfile.NamedTemporaryFile("r") as weight:
        before = [TIME, "-q", "-f", "%M", "-o", weight.name] if weighed and TIME else []
        ran = subprocess.Popen([*before, *map(str, words)], stdin=read, stdout=told, stderr=subprocess.DEVNULL, start_new_session=True)
        ended = threading.Event()
        late = threading.Timer(limit, lambda: (ended.set(), os.killpg(ran.pid, signal.SIGKILL)))
        late.start()
        _, status, used = os.wait4(ran.pid, 0)
        late.cancel()
        ran.returncode = os.waitstatus_to_exitcode(status)
        if ended.is_set():
            return ENDED
        if ran.returncode < 0 or ran.returncode > 128:
            raise ChildProcessError(f"{' '.join(map(str, words))} ended with {ran.returncode}")
        return Took(used.ru_utime + used.ru_stime, int(weight.read() or 0) / 1024 if before else 0.0) if ran.returncode == 0 else None


def least(runs: list[list], given: Path | None = None, out: Path | None = None) -> list[Took | None]:
    """What some runs take, which go in turns; the first one's output stays."""
    outs = [out if k == 0 or out is None else out.with_name(f"{out.name}.{k}") for k in range(len(runs))]
    found = [once(words, given, to, weighed=True) for words, to in zip(runs, outs)]
    for _ in range(2):
        for k, words in enumerate(runs):
            now = found[k]
            if now and now.seconds < 10:
                again = once(words, given, outs[k])
                found[k] = Took(min(now.seconds, again.seconds), now.megabytes) if again else None
    return found


def random_rows(width: int, dice: random.Random) -> list[str]:
    """Rows of a cover that some inputs do not meet: ABC takes no other."""
    while True:
        rows = sorted({"".join(dice.choice("01-") for _ in range(width)) for _ in range(2)})
        if any(all(any(bit not in ("-", given) for bit, given in zip(row, inputs)) for row in rows) for inputs in product("01", repeat=width)):
            return rows


def random_netlist(cells: int, dice: random.Random) -> str:
    """One flat model: an eighth of the cells are latches, the others covers of one to three nets that stand before them."""
    latches = cells // 8
    nets, lines = [f"i{k}" for k in range(32)] + [f"l{k}" for k in range(latches)], []
    for k in range(cells - latches):
        ins = dice.sample(nets, dice.randint(1, 3))
        lines += [f".names {' '.join(ins)} c{k}", *(f"{row} 1" for row in random_rows(len(ins), dice))]
        nets.append(f"c{k}")
    late = nets[len(nets) // 2 :]
    lines += [f".latch {dice.choice(late)} l{k} {k % 2}" for k in range(latches)]
    head = [".model flat", ".inputs " + " ".join(nets[:32]), ".outputs " + " ".join(nets[32:64])]
    return "\n".join([*head, *lines, ".end"]) + "\n"


def many_pearls(pearls: int) -> str:
    """Pearls of six instances each, whose columns are ports for the greater part: 237 in each, and a net of the root."""
    ports, inner = " ".join(f"i{k}" for k in range(32)), []
    for at in range(6):
        inner.append(f".subckt y {' '.join(f'i{k}=i{k}' for k in range(32))} q=w{at}")
    x = [".model x", f".inputs {ports}", ".outputs q", *inner, ".latch w5 q 0", ".end"]
    y = [".model y", f".inputs {ports}", ".outputs q", ".names i0 i1 q", "10 1", "01 1", ".end"]
    ring = [f".subckt x {' '.join(f'i{k}=n{at}' for k in range(32))} q=n{(at + 1) % pearls}" for at in range(pearls)]
    return "\n".join([".model pearls", ".outputs n0", *ring, ".end", *x, *y]) + "\n"


def largest_system(shells: int, dice: random.Random) -> str:
    """Registers that each read four others, the last one three, and an output: 16,384 channels of 4,096."""
    lines = [".model system", ".outputs n0"]
    for k in range(shells):
        others = [(k - 1) % shells] + dice.sample([v for v in range(shells) if v not in (k, (k - 1) % shells)], 3 - (k == shells - 1))
        lines.append(f".subckt s{len(others)} " + " ".join(f"i{at}=n{v}" for at, v in enumerate(others)) + f" q=n{k}")
    lines.append(".end")
    for ins in (3, 4):
        names = " ".join(f"i{at}" for at in range(ins))
        lines += [f".model s{ins}", f".inputs {names}", ".outputs q", f".names {names} d", f"{'1' * ins} 1", f"{'0' * ins} 1", ".latch d q 0", ".end"]
    return "\n".join(lines) + "\n"


def latches(count: int) -> str:
    """Latches that are outputs: `emit` takes up to 2,300."""
    names = [f"{k:03x}" for k in range(count)]
    return "\n".join([".model latches", ".outputs " + " ".join(names), *(f".latch {name} {name} 0" for name in names), ".end"]) + "\n"


def few(dice: random.Random, channels: int) -> list[int]:
    return [dice.randrange(4) for _ in range(channels)]


def full(dice: random.Random, channels: int) -> list[int]:
    """As many as there may be, drawn about their mean."""
    relays = [(65536 - channels) // channels] * channels
    for _ in range(channels):
        a, b = dice.randrange(channels), dice.randrange(channels)
        if a != b and relays[a] > 0:
            relays[a], relays[b] = relays[a] - 1, relays[b] + 1
    return relays


class Bench:
    """A design, its rows and stations, as files, and the programs that are measured on it."""

    def __init__(self, folder: Path, programs: list[Path], net: str, rows: int, relays_of: Callable, peers: bool):
        dice = random.Random(1)
        self.folder, self.programs, self.count, self.peers = folder, programs, rows, peers
        self.net = self.file("net.blif", net)
        told = subprocess.run([programs[0], "check", self.net], capture_output=True, text=True, check=True).stdout.splitlines()
        self.shells = next(int(line.split()[1]) for line in told if line.startswith("shells"))
        named = [line.split()[1:4] for line in told if line.startswith("channel ")]
        self.relays = relays_of(dice, len(named))
        self.stations = sum(self.relays) + len(self.relays)
        placed = [(*channel, k) for channel, k in zip(named, self.relays)]
        self.file("stations", "lid-stations 1\n" + "".join(f"{a} {b} {p} {k}\n" for a, b, p, k in placed))
        self.file("wires", "lid-wires 1\n" + "".join(f"{a} {b} {p} {1000 * k + 1}\n" for a, b, p, k in placed))
        node = lambda n: 0 if n == "in" else self.shells + 1 if n == "out" else int(n[1:]) + 1
        self.graph = marking(self.shells + 2, [(node(a), node(b), 0) for a, b, _ in named], self.relays, [2] * self.stations)
        clocks = {w for line in net.splitlines() if line.startswith(".latch") for w in line.split()[4:5]}
        self.inputs = [n for n in listed(net, ".inputs") if n not in clocks and n != "clk"]
        self.rows = ["".join(dice.choice("01") for _ in self.inputs) for _ in range(rows)]
        self.file("rows", "\n".join([" ".join(self.inputs) or "-", *(row or "-" for row in self.rows)]) + "\n")
        self.file("schedule", " ".join(str(dice.randrange(self.graph[0])) for _ in range(100000)) + "\n")

    def file(self, name: str, text: str) -> Path:
        (self.folder / name).write_text(text)
        return self.folder / name

    def lid(self, line: str, out: str | None = None) -> list[Took | None]:
        """What a command takes by each program, nothing where it is refused; the output of the first is kept."""
        words = [str(self.net) if w == "NET" else str(self.folder / w[1:]) if w.startswith("@") else w for w in line.split()]
        return least([[p, *words] for p in self.programs], out=self.folder / out if out else None)

    def emitted(self) -> tuple[str, list[str], list[str]] | None:
        """The emitted netlist, its inputs, and rows that offer a row and take one in each cycle of the clocked run."""
        text = subprocess.run([self.programs[0], "emit", self.net, "--stations", self.folder / "stations"], capture_output=True, text=True, check=False).stdout
        told = subprocess.run([self.programs[0], "clock", self.net, self.folder / "rows", "--stations", self.folder / "stations"], capture_output=True, text=True, check=True).stdout
        cycles = next(int(line.split()[1]) for line in told.splitlines() if line.startswith("cycles "))
        rows = [self.rows[k % len(self.rows)] + "10" for k in range(cycles)]
        return (text, listed(text, ".inputs"), rows) if text else None


class Peer:
    """A netlist and its rows for other tools, which Yosys reads and flattens."""

    def __init__(self, b: Bench, text: str, inputs: list[str], rows: list[str]):
        folder = self.folder = b.folder
        self.rows = rows
        clocks = {w for line in text.splitlines() if line.startswith(".latch") for w in line.split()[4:5]}
        flat = ".subckt" not in text
        self.net, self.flat = folder / "peer.blif", folder / "peer_flat.blif"
        for old in (self.flat, folder / "peer.v"):
            old.unlink(missing_ok=True)
        self.net.write_text(text if clocks else clocked(text))
        (folder / "peer.bits").write_text("\n".join(row[::-1] or "0" for row in rows) + "\n")
        clock, outputs = next(iter(clocks), "clk"), listed(text, ".outputs")
        (folder / "peer_bench.v").write_text(self.bench(clock, inputs, outputs))
        if shutil.which("yosys"):
            self.yosys(f"read_blif {self.net}; hierarchy -auto-top; flatten; clean; rename -top dut; write_verilog -noattr {folder / 'peer.v'}")
            if not flat:
                self.yosys(f"read_blif {self.net}; hierarchy -auto-top; flatten; simplemap; clean; write_blif {self.flat}")
        if flat:
            self.flat.write_text(text)
        given = b.file("peer.rows", "\n".join([" ".join(inputs) or "-", *(row or "-" for row in rows)]) + "\n")
        # of the netlist as it is: a clock that is put in goes to models without latches too, which is refused
        plain = b.file("plain.blif", text)
        self.wanted = subprocess.run([b.programs[0], "strict", plain, given], capture_output=True, text=True, check=True).stdout.splitlines()[1:]

    def yosys(self, script: str):
        subprocess.run(["timeout", str(BUILD_LIMIT), "yosys", "-q", "-p", script], check=False)

    def bench(self, clock: str, inputs: list[str], outputs: list[str]) -> str:
        ports = [f".\\{name} (given[{k}])" for k, name in enumerate(inputs)] + [f".\\{name} (told[{k}])" for k, name in enumerate(outputs)]
        wide = max(len(inputs), 1)
        return "\n".join([
            "module bench;", f"reg [{wide - 1}:0] rows [0:{len(self.rows) - 1}];", f"reg [{wide - 1}:0] given;", f"wire [{len(outputs) - 1}:0] told;",
            "reg clk = 0;", "integer t;", f"dut d (.\\{clock} (clk), {', '.join(ports)});", "initial begin", f'$readmemb("{self.folder / "peer.bits"}", rows);',
            f"for (t = 0; t < {len(self.rows)}; t = t + 1) begin given = rows[t]; #1 $display(\"%b\", told); clk = 1; #1 clk = 0; #1; end",
            "$finish;", "end", "endmodule",
        ]) + "\n"

    def compiled(self, words: list, run: list) -> tuple[Took | None, Took | None]:
        """What a compilation and the run of what it made take. Its rows must be those of `strict`."""
        if not shutil.which(words[0]) or not (self.folder / "peer.v").is_file():
            return None, None
        built, told = once(words, limit=BUILD_LIMIT), self.folder / "peer_told"
        if not built or built == ENDED:
            return built, None
        ran = least([run], out=told)[0]
        if not ran or ran == ENDED:
            return built, ran
        rows = [line[::-1] for line in told.read_text().splitlines() if re.fullmatch("[01xz]+", line)]
        if rows != self.wanted:
            sys.exit(f"speed.py: {words[0]} gives other rows of {self.net.name} than strict")
        return built, ran

    def icarus(self) -> tuple[Took | None, Took | None]:
        files = [self.folder / "peer_bench.v", self.folder / "peer.v"]
        return self.compiled(["iverilog", "-g2012", "-s", "bench", "-o", self.folder / "peer_icarus", *files], ["vvp", "-n", self.folder / "peer_icarus"])

    def verilator(self) -> tuple[Took | None, Took | None]:
        place = self.folder / "peer_verilator"
        shutil.rmtree(place, ignore_errors=True)
        words = ["verilator", "--binary", "-j", "1", "-O3", "-CFLAGS", "-O2", "-Wno-fatal", "-Wno-lint", "--top-module", "bench", "--Mdir", place]
        return self.compiled([*words, self.folder / "peer_bench.v", self.folder / "peer.v"], [place / "Vbench"])

    def abc(self, script: str) -> Took | None:
        if not shutil.which("yosys-abc") or not self.flat.is_file():
            return None
        told = self.folder / "abc_told"
        took = least([["yosys-abc", "-q", f"read_blif {self.flat}{script}; echo whole"]], out=told)[0]
        # its status is 0 where a command fails too; what follows that is not run
        return took if took == ENDED or "whole" in told.read_text().split() else None


def lemon_program(folder: str | Path) -> Path | None:
    source, made = Path(folder, "mmc.cc"), Path(folder, "mmc")
    source.write_text(LEMON)
    built = subprocess.run(["g++", "-O2", "-w", "-o", made, source, "-llemon"], capture_output=True, check=False) if shutil.which("g++") else None
    return made if built and built.returncode == 0 else None


def lemon(b: Bench) -> Took | None:
    made = lemon_program(b.folder)
    if made is None:
        return None
    count, edges = b.graph
    return least([[made]], given=b.file("graph", f"{count} {len(edges)}\n" + "".join(f"{a} {b} {m}\n" for a, b, m in edges)))[0]


Rows = dict[str, list[Took | None] | None]


def of_netlist(b: Bench) -> Rows:
    """What has to do with the netlist alone."""
    told: Rows = {"check": b.lid("check NET"), f"reading {ABC}": None, "strict": b.lid("strict NET @rows")}
    if not b.peers:
        return told
    peer = Peer(b, b.net.read_text(), b.inputs, b.rows)
    told[f"reading {ABC}"] = [peer.abc("")]
    for name, (build, run) in ((ICARUS, peer.icarus()), (VERILATOR, peer.verilator())):
        told[f"the same rows {name}"], told[f"the netlist compiled {name}"] = [run], [build]
    told[f"32 runs at once {ABC}"] = [peer.abc(f"; strash; sim -F {b.count} -W 1")]
    return told


def of_system(b: Bench) -> Rows:
    placed = "--stations @stations"
    trace = min(100, 1048576 // b.stations)
    told: Rows = {"clock": b.lid(f"clock NET @rows {placed}")}
    emitted = b.emitted() if b.peers else None
    if emitted:
        peer = Peer(b, *emitted)
        for name, (build, run) in ((ICARUS, peer.icarus()), (VERILATOR, peer.verilator())):
            told[f"the emitted netlist {name}"], told[f"it compiled {name}"] = [run], [build]
    told["clock on 2 workers"] = b.lid(f"clock NET @rows {placed} --workers 2") if b.shells <= 200 else None
    told["walk of 100,000 steps"] = b.lid(f"walk NET @rows {placed} --schedule @schedule")
    told["free on 2 workers, 1,000 rounds"] = b.lid(f"free NET @rows {placed} --workers 2 --rounds 1000")
    told["wave of 100 cycles (16 of the largest)"] = b.lid(f"wave NET @rows {placed} --trace {trace}", out="dump")
    told["unwave of it"] = b.lid("unwave @dump")
    told["place"] = b.lid("place NET --wires @wires --reach 1000")
    told["rate"] = b.lid(f"rate NET {placed}", out="cert")
    told["one ratio by LEMON"] = [lemon(b)] if b.peers else None
    told["verify"] = b.lid(f"verify NET @cert {placed}")
    told["size"] = b.lid(f"size NET {placed}")
    told["slack of all channels"] = b.lid(f"slack NET {placed}")
    told["emit"] = b.lid(f"emit NET {placed}")
    return told


def of_generator(b: Bench) -> Rows:
    many = min(b.shells, 2000)
    return {"gen of as many shells": b.lid(f"gen 7 --shells {many}"), "and a run of 1,000 rows": b.lid(f"gen 7 --shells {many} --run 1000")}


def gen(shells: int) -> Callable[[Path], str]:
    return lambda lid: subprocess.run([lid, "gen", "7", "--shells", str(shells)], capture_output=True, text=True, check=True).stdout


class Measured(NamedTuple):
    """A design that is measured: its name, its text (made by a program, where it is generated), how many rows, its relay
    stations, and of what."""

    name: str
    net: Callable[[Path], str]
    rows: int
    relays: Callable
    of: tuple


ALL = (of_netlist, of_system, of_generator)
EACH = [
    Measured("acc", lambda _: (EXAMPLES / "acc.blif").read_text(), 1000, few, (of_netlist, of_system)),
    Measured("200 shells", gen(200), 1000, few, ALL),
    Measured("2,000 shells", gen(2000), 1000, few, ALL),
    Measured("4,096 shells, the largest system", lambda _: largest_system(4096, random.Random(1)), 1000, full, ALL[:2]),
    Measured("262,144 cells in one model", lambda _: random_netlist(262144, random.Random(1)), 300, few, (of_netlist,)),
    Measured("4,096 pearls of six instances", lambda _: many_pearls(4096), 300, few, (of_netlist,)),
    Measured("2,300 latches, the largest that is emitted", lambda _: latches(2300), 1000, few, (lambda b: {"emit": b.lid("emit NET")},)),
]
SHELLS = [Measured(f"{n:,} shells", gen(n), 1000, few, (of_system, of_generator)) for n in (250, 500, 1000, 2000)]
CELLS = [Measured(f"{n:,} cells", lambda _, n=n: random_netlist(n, random.Random(1)), 300, few, (of_netlist,)) for n in (32768, 65536, 131072, 262144)]
PEARLS = [Measured(f"{n:,} pearls", lambda _, n=n: many_pearls(n), 300, few, (of_netlist,)) for n in (512, 1024, 2048, 4096)]
LATCHES = [Measured(f"{n:,} latches", lambda _, n=n: latches(n), 1000, few, EACH[-1].of) for n in (287, 575, 1150, 2300)]


def cell(tooks: list[Took | None] | None) -> str:
    """Seconds and megabytes, of the program before in brackets."""
    if not tooks or not any(tooks):
        return ""
    seconds = [("~" if t == ENDED else f"{t.seconds:.3f}" if t.seconds < 1 else f"{t.seconds:.1f}") if t else "" for t in tooks]
    memory = ["" if t is None or t == ENDED or not t.megabytes else f"{t.megabytes:.0f}" for t in tooks]
    both = lambda words: words[0] + (f" ({words[1]})" if len(words) > 1 and words[1] else "")
    return both(seconds) + (f", {both(memory)} MB" if memory[0] else "")


def measured(these: list[Measured], programs: list[Path], peers: bool) -> dict[str, Rows]:
    told: dict[str, Rows] = {}
    for design in these:
        with tempfile.TemporaryDirectory() as folder:
            b = Bench(Path(folder), programs, design.net(programs[0]), design.rows, design.relays, peers)
            name = f"{design.name}, {b.stations:,} stations" if of_system in design.of else design.name
            told[name] = {word: tooks for of in design.of for word, tooks in of(b).items()}
        print(f"speed.py: {name}", file=sys.stderr)
    return told


def table(told: dict[str, Rows], head: str):
    if not told:
        return
    print(f"| {head} | " + " | ".join(told) + " |\n|---|" + "---|" * len(told))
    for word in dict.fromkeys(word for rows in told.values() for word in rows):
        cells = [cell(rows.get(word)) for rows in told.values()]
        if any(cells):
            print(f"| {word} | " + " | ".join(cells) + " |")
    print(flush=True)


def main():
    parser = parser_of(__doc__)
    parser.add_argument("WHAT", choices=["each", "growth"])
    parser.add_argument("WORD", nargs="?", default="")
    parser.add_argument("--program", type=absolute)
    parser.add_argument("--before", type=absolute)
    given = parser.parse_intermixed_args()
    programs = [given.program or program(), *([given.before] if given.before else [])]
    if given.WHAT == "each":
        families = [EACH]
    else:
        families = [SHELLS, CELLS, PEARLS, LATCHES]
    chosen = [[design for design in family if given.WORD in design.name] for family in families]
    if not any(chosen):
        sys.exit(f"speed.py: no design has {given.WORD} in its name")
    try:
        for family in chosen:
            table(measured(family, programs, given.WHAT == "each"), "Seconds, peak of memory")
    except ChildProcessError as ended:
        sys.exit(f"speed.py: {ended}")


if __name__ == "__main__":
    main()
