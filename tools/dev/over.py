#!/usr/bin/env python3
"""Checks or builds one crate over libraries that others have built, in seconds, where `rt check` would build all
that stands below it anew. Run it at the top of a clone.

    tools/dev/over.py check CRATE FROM.. [-- OPTIONS]
    tools/dev/over.py build CRATE FROM.. [-- OPTIONS]

FROM are clones in which a gate runs or ran: the library of a crate is the first `crates/X/out/rlib/X.rlib` among
them. What `build` makes stands in /tmp/over/X (or in another folder, named by OVER) and goes before all: so a crate that was changed, and what stands
above it, are built one by one, lowest first. Options go to `rattle`, as `--only lid_x::m::f`, `--test`, or
`--start lid_x::m::f --allow-holes`. The gate alone says what is proved.
"""

import os
import subprocess
import sys
from pathlib import Path

from arguments import need_top, parser_of

KIT = Path("/opt/rattle")
OWN = Path(os.environ.get("OVER", "/tmp/over"))


def stands_on() -> dict[str, list[str]]:
    lines = [line.split("#")[0] for line in Path("crates.txt").read_text().splitlines()]
    return {name.strip(): below.split() for name, _, below in (line.partition(":") for line in lines) if name.strip()}


def below(crate: str, on: dict[str, list[str]]) -> list[str]:
    """All crates below, in the order in which they are met."""
    found, left = [], list(on[crate])
    while left:
        name = left.pop(0)
        if name in on and name not in found:
            found.append(name)
            left += on[name]
    return found


def library(name: str, clones: list[Path]) -> Path | None:
    places = [OWN / name, *(clone / "crates" / name / "out" / "rlib" for clone in clones)]
    return next((place for place in places if (place / f"{name}.rlib").exists()), None)


def main():
    split = sys.argv.index("--") if "--" in sys.argv else len(sys.argv)
    parser = parser_of(__doc__)
    parser.add_argument("MODE", choices=("check", "build"))
    parser.add_argument("CRATE")
    parser.add_argument("CLONE", nargs="+")
    given = parser.parse_args(sys.argv[1:split])
    need_top()
    mode, crate, clones = given.MODE, given.CRATE, given.CLONE
    on = stands_on()
    found = {name: library(name, [Path(clone).resolve() for clone in clones]) for name in below(crate, on)}
    missing = [name for name, place in found.items() if place is None]
    if missing:
        sys.exit(f"no library of {' '.join(missing)}")
    for folder in (OWN / crate, OWN / "kept" / crate):
        folder.mkdir(parents=True, exist_ok=True)
    source = "src/main.rt" if Path("crates", crate, "src", "main.rt").exists() else "src/lib.rt"
    words = [KIT / "bin/rattle", mode, "--crate-name", crate, source, "--extern", f"std={KIT}/rlibs/std.rlib"]
    for name in on[crate]:
        place = found[name] if name in found else KIT / "rlibs"
        words += ["--extern", f"{name}={place}/{name}.rlib"]
    words += ["-L", f"dependency={KIT}/rlibs"]
    for place in found.values():
        words += ["-L", f"dependency={place}"]
    words += ["--antt-project", KIT / "rattle/logic/antt-project.json", "--logic-built", KIT / "logic_built"]
    words += ["--links", f"{crate}=", "--jobs", "1", "--incremental", OWN / "kept" / crate]
    words += ["-o", OWN / crate / f"{crate}.rlib"] if mode == "build" else ["--progress"]
    os.chdir(Path("crates", crate))
    sys.exit(subprocess.call(list(map(str, words)) + sys.argv[split + 1 :]))


if __name__ == "__main__":
    main()
