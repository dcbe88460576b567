#!/usr/bin/env python3
"""Compares `lid strict` of a netlist that tools/from_verilog made with Icarus Verilog's run of the Verilog itself.

    tools/dev/verilog.py ROWS SEED TOP FILE.v.. [--keep MODULE].. [--pass PASS].. [--reset NAME=LEVEL]..

--keep and --pass are those of tools/from_verilog. An input that resets asynchronously in the Verilog does so at the next
edge in the netlist, so it is given by --reset: it has this level in the first three rows, which are not compared, and the
other one then. Random rows are given to the inputs of TOP, all but its clock, and each output is read before the clock
rises. Where Icarus says x, a register that nothing has set yet, lid's bit is not looked at (lid lets it begin at 0). It
says how many bits were compared, or what `lid check` refuses.
"""

import random
import re
import subprocess
import sys
import tempfile
from pathlib import Path

from arguments import need, parser_of
from program import program

TOOLS = Path(__file__).resolve().parents[1]


def listed(text: str, word: str) -> list[str]:
    """The names of a list of the first model."""
    lines = text.replace("\\\n", " ").split(".end")[0].splitlines()
    return [name for line in lines if line.startswith(word + " ") for name in line.split()[1:]]


def widths(names: list[str]) -> dict[str, int]:
    """The ports and how many bits each has; 0 for one without a range."""
    found: dict[str, int] = {}
    for name in names:
        bit = re.fullmatch(r"(.*)\[(\d+)\]", name)
        port = bit[1] if bit else name
        found[port] = max(found.get(port, 0), int(bit[2]) + 1 if bit else 0)
    return found


def bench(top: str, clock: str, inputs: list[str], outputs: list[str], rows: list[list[int]]) -> str:
    ports = {**widths(inputs), **widths(outputs)}
    kind = {port: "reg" for port in widths(inputs)} | {port: "wire" for port in widths(outputs)}
    lines = ["module bench;", f"reg {clock} = 0;"]
    lines += [f"{kind[port]} {f'[{bits - 1}:0] ' if bits else ''}{port};" for port, bits in ports.items()]
    lines += [f"{top} dut ({', '.join(f'.{port}({port})' for port in [clock, *ports])});", "initial begin"]
    shown = ", ".join(outputs)
    for row in rows:
        lines += [f"{name} = {bit};" for name, bit in zip(inputs, row)]
        lines += [f'#1 $display("{"%b" * len(outputs)}", {shown});', f"{clock} = 1; #1 {clock} = 0; #1;"]
    return "\n".join([*lines, "end", "endmodule"]) + "\n"


def main():
    parser = parser_of(__doc__)
    for name, kind in (("ROWS", int), ("SEED", int), ("TOP", str)):
        parser.add_argument(name, type=kind)
    parser.add_argument("FILE", nargs="+")
    parser.add_argument("--keep", metavar="MODULE", action="append", default=[])
    parser.add_argument("--pass", metavar="PASS", action="append", default=[], dest="passes")
    parser.add_argument("--reset", metavar="NAME=LEVEL", action="append", default=[])
    given = parser.parse_intermixed_args()
    need("yosys", "iverilog")
    many, seed, top, files = given.ROWS, given.SEED, given.TOP, given.FILE
    options = {"--keep": given.keep, "--pass": given.passes}
    rest = [*files, *(word for option, values in options.items() for value in values for word in (option, value))]
    resets = {name: int(level or 1) for name, _, level in (reset.partition("=") for reset in given.reset)}
    net = subprocess.run([TOOLS / "from_verilog", top, *rest], capture_output=True, text=True, check=False)
    if net.returncode:
        sys.exit(net.stderr)
    with tempfile.TemporaryDirectory() as folder:
        place = Path(folder)
        (place / "n.blif").write_text(net.stdout)
        check = subprocess.run([program(), "check", place / "n.blif"], capture_output=True, text=True, check=False)
        if check.returncode:
            sys.exit(check.stderr)
        outputs = listed(net.stdout, ".outputs")
        dice = random.Random(seed)
        clocks = {w for line in net.stdout.splitlines() if line.startswith(".latch") for w in line.split()[4:5]}
        named = listed(net.stdout, ".inputs")
        clock = next((name for name in named if name in clocks), None) or next(
            name for name in named if name in ("clk", "clock", "clk_i", "CLK", "mclk", "i_clk", "wb_clk_i")
        )
        inputs = [name for name in named if name != clock]
        bit = lambda name, t: resets[name] ^ (t > 2) if name in resets else dice.randint(0, 1)
        rows = [[bit(name, t) for name in inputs] for t in range(many)]
        header = " ".join(inputs) or "-"
        (place / "r.vec").write_text("\n".join([header, *("".join(map(str, row)) or "-" for row in rows)]) + "\n")
        came = subprocess.run([program(), "strict", place / "n.blif", place / "r.vec"], capture_output=True, text=True, check=False)
        if came.returncode:
            sys.exit(came.stderr)
        (place / "b.v").write_text(bench(top, clock, inputs, outputs, rows))
        subprocess.run(["iverilog", "-g2012", "-s", "bench", "-o", place / "b", place / "b.v", *files], check=True)
        run = subprocess.run([place / "b"], capture_output=True, text=True, check=True, cwd=place)
        wanted = [line for line in run.stdout.splitlines() if re.fullmatch(r"[01xz]+", line)]
        told = came.stdout.splitlines()[1:]
        compared = 0
        for t, (row, want) in enumerate(zip(told, wanted, strict=True)):
            for name, bit, other in zip(outputs, row, want, strict=True):
                if other in "01" and (t > 2 or not resets):
                    compared += 1
                    if bit != other:
                        sys.exit(f"row {t}: {name} is {bit}, and {other} by Icarus Verilog")
        shells = next(line for line in check.stdout.splitlines() if line.startswith("shells"))
        print(f"{top}: {shells}, {len(rows)} rows, {compared} of {len(rows) * len(outputs)} bits compared, no difference")


if __name__ == "__main__":
    main()
