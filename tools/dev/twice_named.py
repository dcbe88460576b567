#!/usr/bin/env python3
"""Lists each public name that stands in two crates or more. Run it at the top of the tree.

    tools/dev/twice_named.py [--least N] [NAME..]

Public names are those of `pub` items that a crate's lib.rt gives out (functions, types, traits, constants; of what is
given out again from another crate: where it comes from), and `pub` definitions, records and data of specs/*.antt. Of
each it tells the crate, the file with the line, and the first line of its definition. Fields, constructors, methods
and what proofs/ holds are left out.
"""

import argparse
import re
import sys
from collections import defaultdict
from pathlib import Path
from typing import NamedTuple

NAME = r"[A-Za-z_][\w'?!-]*"
DEFINED = re.compile(rf"^(?:(?:abbrev|unfoldable|instance|inline) )*pub (?:(?:abbrev|unfoldable|record|data) )*(?!use\b|mod\b)({NAME})(?=[\s:({{])")
GIVEN = re.compile(r"^pub use ([\w:]+)::(?:\{([^}]*)\}|(\w+));", re.MULTILINE)
ITEM = re.compile(r"^pub (?:const fn|unsafe fn|fn|struct|enum|trait|const|static|type) (\w+)", re.MULTILINE)


class Place(NamedTuple):
    """Where a public name stands."""

    crate: str
    file: Path
    line: int
    text: str
    again: bool  # given out again from another crate


def line_of(text: str, at: int) -> tuple[int, str]:
    number = text.count("\n", 0, at) + 1
    return number, text.splitlines()[number - 1]


def specs_names(crate: Path) -> list[tuple[str, Place]]:
    found = []
    for file in sorted(crate.glob("specs/*.antt")):
        for number, line in enumerate(file.read_text().splitlines(), 1):
            if name := DEFINED.match(line):
                found.append((name[1], Place(crate.name, file, number, line, False)))
    return found


def given_names(text: str) -> list[tuple[str, str]]:
    """The pairs of a path and a name that a lib.rt gives out."""
    found = []
    for path, many, one in GIVEN.findall(text):
        for name in (many or one).split(","):
            if name := name.strip().split(" as ")[-1].strip():
                *inner, last = name.split("::")
                found.append(("::".join([path, *inner]), last))
    return found


def items_of(file: Path) -> dict[str, tuple[int, str]]:
    text = file.read_text()
    return {item[1]: line_of(text, item.start()) for item in ITEM.finditer(text)}


def code_names(crate: Path) -> list[tuple[str, Place]]:
    root = crate / "src/lib.rt"
    if not root.exists():
        return []
    found = [(name, Place(crate.name, root, *at, False)) for name, at in items_of(root).items()]
    text = root.read_text()
    for path, name in given_names(text):
        module = path.removeprefix("crate::").split("::")
        file = (crate / "src" / Path(*module)).with_suffix(".rt")
        item = items_of(file).get(name) if file.exists() else None
        if item:
            found.append((name, Place(crate.name, file, *item, False)))
        else:
            at = re.search(rf"^pub use [^;]*\b{name}\b", text, re.MULTILINE)
            found.append((name, Place(crate.name, root, *line_of(text, at.start()), not file.exists())))
    return found


def public_names(crates: Path) -> dict[str, list[Place]]:
    names = defaultdict(list)
    for crate in sorted(path for path in crates.iterdir() if path.is_dir()):
        for name, place in specs_names(crate) + code_names(crate):
            names[name].append(place)
    return names


def main() -> int:
    parser = argparse.ArgumentParser(description=__doc__, formatter_class=argparse.RawDescriptionHelpFormatter)
    parser.add_argument("names", nargs="*", metavar="NAME", help="only these names")
    parser.add_argument("--least", type=int, default=2, help="names that stand in so many crates or more (2)")
    parser.add_argument("--crates", type=Path, default=Path("crates"), help="the folder of crates (crates)")
    given = parser.parse_args()
    if not given.crates.is_dir():
        print(f"no folder {given.crates}: run it at the top of the tree", file=sys.stderr)
        return 2
    names = public_names(given.crates)
    several = {name: places for name, places in names.items() if len({place.crate for place in places}) >= given.least}
    for name, places in sorted(several.items(), key=lambda pair: (-len({p.crate for p in pair[1]}), pair[0])):
        if given.names and name not in given.names:
            continue
        print(f"{name}: {len({place.crate for place in places})} crates")
        for place in places:
            again = " (given out again)" if place.again else ""
            print(f"  {place.file}:{place.line}{again}: {place.text.strip()}")
    print(f"{len(several)} of {len(names)} public names stand in {given.least} crates or more")
    return 0


if __name__ == "__main__":
    sys.exit(main())
