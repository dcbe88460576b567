#!/usr/bin/env python3
"""Tries must-fail edits one by one, where there is no time for a gate: each is made in a clone of what is committed, and
the function that it changes is checked over the libraries of a gate, by over.py. Run it at the top of a clone.

    tools/dev/edits.py FROM JOBS CRATE..

FROM is a clone in which a gate has built the libraries. A line for each edit: `refused` with the first reason,
`PASSED?`, which wants a look (a function can keep its contract while another that calls it fails), or `NOT TRIED`, where
the prover does not know the function by its name, or a library is missing. `rt ci` alone is the verdict.
"""

import os
import re
import subprocess
import sys
import tempfile
from concurrent.futures import ThreadPoolExecutor
from pathlib import Path
from queue import Queue

from arguments import need, need_top, parser_of

TOP = Path.cwd()
SAYS = re.compile(r"no proof|not proved|\berror:")
LOST = re.compile(r"several functions are named|has no function|no library of|unusable-built-library")


def function_at(module: str, source: str, place: int) -> str | None:
    """The function in which a place stands, with its module; a method with its type and trait."""
    before = source[:place]
    functions = re.findall(r"^( *)(?:pub(?:\(\w+\))? )?(?:const )?fn (\w+)", before, re.M)
    if not functions:
        return None
    indent, name = functions[-1]
    types = re.findall(r"^impl(?:<[^{]*?>)? (?:(\w+)(?:<[^{]*?>)? for )?(\w+)", before, re.M)
    return f"{types[-1][1]}{types[-1][0]}::{name}" if indent and types else f"{module}::{name}"


def make(edit: Path, folder: Path) -> set[str | None]:
    """Makes an edit; the functions that it changes."""
    lines = [line.partition(": ")[::2] for line in edit.read_text().splitlines()]
    path = folder / next(text for word, text in lines if word == "file")
    changed, old = set(), ""
    for word, text in lines:
        source = path.read_text()
        if word == "old":
            old = text
            module = folder.name if path.stem == "lib" else f"{folder.name}::{path.stem}"
            changed.add(function_at(module, source, source.index(old)))
        elif word == "new":
            path.write_text(source.replace(old, text))
    return changed


def tried(edit: Path, clone: Path, libraries: str) -> str:
    crate = edit.parent.parent.name
    subprocess.run(["git", "checkout", "-q", "--", "crates"], cwd=clone, check=True)
    changed = make(edit, clone / "crates" / crate)
    only = [] if None in changed else [word for name in sorted(changed) for word in ("--only", name)]
    words = ["tools/dev/over.py", "check", crate, libraries, "--", *only]
    env = {**os.environ, "OVER": str(clone / "over")}
    ran = subprocess.run(words, cwd=clone, env=env, stdout=subprocess.PIPE, stderr=subprocess.STDOUT, errors="replace", check=False)
    lines = ran.stdout.splitlines()
    lost = [line for line in lines if LOST.search(line)]
    if lost:
        return f"{crate}/{edit.stem}: NOT TRIED: {lost[0][:160]}"
    said = [line for line in lines if SAYS.search(line)]
    return f"{crate}/{edit.stem}: {'refused: ' + said[0][:160] if said else 'PASSED?'}"


def main():
    parser = parser_of(__doc__)
    parser.add_argument("FROM", type=Path)
    parser.add_argument("JOBS", type=int)
    parser.add_argument("CRATE", nargs="+")
    given = parser.parse_args()
    need_top()
    need("rt")
    libraries, jobs, crates = str(given.FROM.resolve()), given.JOBS, given.CRATE
    edits = [edit for crate in crates for edit in sorted((TOP / "crates" / crate / "must-fail").glob("*.edit"))]
    with tempfile.TemporaryDirectory() as folder, ThreadPoolExecutor(jobs) as pool:
        clones: Queue = Queue()
        for number in range(jobs):
            clone = Path(folder, str(number))
            subprocess.run(["git", "clone", "-q", TOP, clone], check=True)
            clones.put(clone)

        def one(edit: Path) -> str:
            clone = clones.get()
            try:
                return tried(edit, clone, libraries)
            finally:
                clones.put(clone)

        for line in pool.map(one, edits):
            print(line, flush=True)


if __name__ == "__main__":
    main()
