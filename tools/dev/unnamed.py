#!/usr/bin/env python3
"""Lists, for each crate, the crates in its line of crates.txt that none of its files names, and how many ways lead from
all crates to those below them, by which the time of `rt ci` before it does anything grows.

    tools/dev/unnamed.py [CRATE..]

Most of them can go: `tools/dev/over.py check CRATE CLONE` tells, over the libraries of a gate. One has to stay where a goal
wants a type of it, which the check then calls out of reach.
"""

import functools
import re
import sys
from pathlib import Path

from arguments import parser_of

TOP = Path(__file__).resolve().parents[2]


def lines() -> dict[str, list[str]]:
    told = (line.split("#")[0].partition(":") for line in (TOP / "crates.txt").read_text().splitlines())
    return {name.strip(): below.split() for name, _, below in told if name.strip()}


def named(crate: str) -> set[str]:
    files = (path for part in ("src", "specs", "proofs", "must-fail") for path in (TOP / "crates" / crate / part).rglob("*"))
    return {name for path in files if path.is_file() for name in re.findall(r"\blid_\w+", path.read_text())}


def main():
    parser = parser_of(__doc__)
    parser.add_argument("CRATE", nargs="*")
    on = lines()
    crates = parser.parse_args().CRATE or on
    for crate in crates:
        if crate not in on:
            sys.exit(f"unnamed.py: crates.txt has no {ascii(crate)[1:-1]}")

    @functools.cache
    def ways(crate: str) -> int:
        return 1 + sum(ways(name) for name in on.get(crate, []))

    for crate in crates:
        spare = [name for name in on[crate] if name in on and name not in named(crate)]
        if spare:
            print(f"{crate}: {' '.join(spare)}")
    print(f"{sum(map(ways, on)):,} ways")


if __name__ == "__main__":
    main()
