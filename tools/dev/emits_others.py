#!/usr/bin/env python3
"""Gives what `lid emit` prints to Yosys, Icarus Verilog and ABC, and says what they make of it.

    tools/dev/emits_others.py NET [STATIONS] [--rows N] [--seed S]

Yosys reads the netlist, checks it (`check -assert`) and writes it as Verilog, which Icarus Verilog simulates for random
rows, offered and taken at random: each output must be that of `lid strict`. ABC reads the netlist too, and proves that
what Yosys makes of it by `opt` and `abc` does the same (`dsec`), where it ends within a minute. It prints a line.
"""

import random
import re
import subprocess
import sys
import tempfile
import time
from pathlib import Path

from arguments import need, parser_of
from compare import rows_text
from program import program
from verilog import bench, listed


def clocked(text: str) -> str:
    """The netlist with a clock for all latches that name none: Yosys writes no Verilog for latches without one."""
    lines = []
    for line in text.splitlines():
        words = line.split()
        if words[:1] == [".subckt"]:
            line += " clk=clk"
        if words[:1] == [".latch"] and len(words) < 5:
            line = " ".join([*words[:3], "re", "clk", *words[3:]])
        lines += [line, ".inputs clk"] if words[:1] == [".model"] else [line]
    return "\n".join(lines) + "\n"


def yosys(script: str) -> str:
    return subprocess.run(["yosys", "-p", script], capture_output=True, text=True, check=True).stdout


def by_icarus(place: Path, text: str, rows: list[list[int]]) -> list[str]:
    (place / "c.blif").write_text(clocked(text))
    yosys(f"read_blif -wideports {place}/c.blif; hierarchy -auto-top -check; check -assert; rename -top dut; write_verilog -noattr {place}/e.v")
    (place / "b.v").write_text(bench("dut", "clk", listed(text, ".inputs"), listed(text, ".outputs"), rows))
    subprocess.run(["iverilog", "-g2012", "-s", "bench", "-o", place / "b", place / "b.v", place / "e.v"], check=True)
    told = subprocess.run([place / "b"], capture_output=True, text=True, check=True).stdout
    return [line for line in told.splitlines() if re.fullmatch(r"[01xz]+", line)]


def by_abc(place: Path) -> str:
    yosys(f"read_blif {place}/c.blif; hierarchy -auto-top; simplemap; opt -nodffe -nosdff; abc; opt_clean; write_blif {place}/o.blif")
    began = time.monotonic()
    try:
        ran = subprocess.run(
            ["yosys-abc", "-c", f"dsec {place}/c.blif {place}/o.blif"],
            capture_output=True, text=True, timeout=60, check=False,
        )
    except subprocess.TimeoutExpired:
        return "not ended in 60 s"
    verdict = [line for line in ran.stdout.splitlines() if "quivalent" in line or "UNDECIDED" in line or "rror" in line]
    return f"{(verdict or ['nothing'])[-1].strip()} ({time.monotonic() - began:.1f} s)"


def main():
    parser = parser_of(__doc__)
    parser.add_argument("NET", type=Path)
    parser.add_argument("STATIONS", nargs="?")
    parser.add_argument("--rows", type=int, default=200)
    parser.add_argument("--seed", type=int, default=1)
    given = parser.parse_args()
    need("yosys", "iverilog")
    dice = random.Random(given.seed)
    placed = ["--stations", given.STATIONS] if given.STATIONS else []
    began = time.monotonic()
    text = subprocess.run([program(), "emit", given.NET, *placed], capture_output=True, text=True, check=True).stdout
    took = time.monotonic() - began
    with tempfile.TemporaryDirectory() as folder:
        place = Path(folder)
        (place / "e.blif").write_text(text)
        ins = listed(text, ".inputs")
        rows = [[dice.randint(0, 1) for _ in ins] for _ in range(given.rows)]
        (place / "r.vec").write_text(rows_text(ins, rows))
        strict = subprocess.run([program(), "strict", place / "e.blif", place / "r.vec"], capture_output=True, text=True, check=True).stdout.splitlines()[1:]
        told = by_icarus(place, text, rows)
        differs = [t for t, (a, b) in enumerate(zip(strict, told, strict=True)) if a != b]
        if differs:
            sys.exit(f"row {differs[0]}: {strict[differs[0]]}, and {told[differs[0]]} by Icarus Verilog")
        cells = sum(line.startswith((".names", ".latch")) for line in text.splitlines())
        latches = sum(line.startswith(".latch") for line in text.splitlines())
        print(f"{given.NET.stem}: {cells} cells ({latches} latches), {len(text)} bytes, {took:.2f} s; {len(rows)} rows by Yosys and Icarus Verilog: no difference; ABC dsec: {by_abc(place)}")


if __name__ == "__main__":
    main()
