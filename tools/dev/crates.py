#!/usr/bin/env python3
"""Writes docs/CRATES.md, the page of crates, from the first lines of their root files and from crates.txt.

    tools/dev/crates.py            writes the page
    tools/dev/crates.py --check    says what differs, with status 1, where the page is not what would be written

A crate that is no room of another is a door; its rooms begin with its name. Doors come in the order in which a reader
meets them, that of DOORS below, and each room stands under its door.
"""

import argparse
import sys
from pathlib import Path

TOP = Path(__file__).resolve().parents[2]
PAGE = TOP / "docs" / "CRATES.md"
DOORS = """
lid lid_top lid_base lid_cover lid_design lid_blif lid_blifout lid_check lid_strict lid_texts lid_pearl lid_system lid_net
lid_graph lid_stations lid_cert lid_rate lid_size lid_slack lid_station lid_shell lid_walk lid_board lid_free lid_clock
lid_parclock lid_stall lid_vcd lid_emit lid_gen lid_tests
""".split()
HEAD = """# The crates

Written by `tools/dev/crates.py` from the first lines of each crate's root file; the gate refuses a page that differs.

A crate whose name is not another's with `_` and more after it (that of the program, `lid`, does not count) is a **door**:
its public calls are those that [the top call](PROVED.md) and the other parts of the house use. Crates whose names are that
of a door with `_` and more after it are its rooms: `.._text` is how a thing is written and read, `.._laws` are theorems
without code, `.._guess` is what is tested by whoever takes it, and `.._tests` are tests. The number is that of the crates
that stand on it, directly or not: so many are proved again where it changes.
"""


def stands_on() -> dict[str, list[str]]:
    lines = [line.split("#")[0] for line in (TOP / "crates.txt").read_text().splitlines()]
    pairs = (line.partition(":") for line in lines if line.strip())
    return {name.split()[0]: below.split() for name, _, below in pairs}


def above(on: dict[str, list[str]]) -> dict[str, set[str]]:
    """For each crate those that stand on it, directly or not."""
    direct = {name: {top for top in on if name in on[top]} for name in on}
    found: dict[str, set[str]] = {}

    def all_of(name: str) -> set[str]:
        if name not in found:
            found[name] = direct[name].union(*(all_of(top) for top in direct[name]))
        return found[name]

    return {name: all_of(name) for name in on}


def first_lines(crate: str) -> str:
    """The first paragraph of the documentation of a crate's root file."""
    source = TOP / "crates" / crate / "src"
    root = next(file for file in (source / "lib.rt", source / "main.rt") if file.exists())
    said = []
    for line in root.read_text().splitlines():
        if not line.startswith("//! "):
            break
        said.append(line.removeprefix("//! ").strip())
    if not said:
        sys.exit(f"crates.py: {root.relative_to(TOP)} does not say what the crate is")
    return " ".join(said)


def door_of(crate: str) -> str:
    """The longest door whose name the crate's begins with."""
    doors = [door for door in DOORS if crate == door or crate.startswith(door + "_")]
    if not doors or max(doors, key=len) == "lid" != crate:
        sys.exit(f"crates.py: {crate} stands behind no door; its name begins with none of DOORS")
    return max(doors, key=len)


def page() -> str:
    on = stands_on()
    over = above(on)
    rooms: dict[str, list[str]] = {door: [] for door in DOORS}
    for crate in sorted(on):
        rooms[door_of(crate)].append(crate)
    said = [HEAD]
    for door in DOORS:
        names = sorted(rooms[door], key=lambda name: (name != door, name.endswith("_tests"), name))
        said.append(f"\n## {door}\n")
        for name in names:
            count = len(over[name])
            stand = "no crate stands on it" if count == 0 else f"{count} crate{'s' * (count > 1)} stand{'s' * (count == 1)} on it"
            said.append(f"- **`{name}`** {first_lines(name)}\n  ({stand})")
    said.append(f"\n{len(on)} crates.\n")
    return "\n".join(said)


def main():
    parser = argparse.ArgumentParser(description=__doc__, formatter_class=argparse.RawDescriptionHelpFormatter)
    parser.add_argument("--check", action="store_true", help="compare the page with what would be written, and write nothing")
    wanted, check = page(), parser.parse_args().check
    if not check:
        PAGE.write_text(wanted)
    elif not PAGE.exists() or PAGE.read_text() != wanted:
        sys.exit("crates.py: docs/CRATES.md is not what the crates say; tools/dev/crates.py writes it anew")
    else:
        print("crates.py: docs/CRATES.md is what the crates say")


main()
