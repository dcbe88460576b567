#!/usr/bin/env python3
"""Proves the crates of a clone bottom up and keeps what passed, so that after a change only what it touches is proved
again. It is no verdict, since it trusts what it kept: run it until all passes, and then the gate, once, from nothing.

    tools/dev/pregate.py CLONE 4              all crates, and then the tests of those that have some
    tools/dev/pregate.py CLONE 2 lid_top      these crates, and those below them

CLONE is a clone of what is committed; the libraries stand in its crates/X/out/rlib, where tools/dev/over.py finds them,
and what a crate's check said in crates/X/out/proof.log and tests.log. A line is printed for each that was tried.
"""

import argparse
import hashlib
import subprocess
import sys
import time
from concurrent.futures import FIRST_COMPLETED, ThreadPoolExecutor, wait
from functools import cache
from pathlib import Path

KIT = Path("/opt/rattle")


class Clone:
    """The crates of a clone: what they stand on, and what they are made of."""

    def __init__(self, top: Path):
        self.top = top
        lines = [line.split("#")[0] for line in (top / "crates.txt").read_text().splitlines()]
        pairs = (line.partition(":") for line in lines if line.strip())
        self.on = {name.split()[0]: below.split() for name, _, below in pairs}

    def out(self, crate: str) -> Path:
        return self.top / "crates" / crate / "out"

    def library(self, crate: str) -> Path:
        return self.out(crate) / "rlib" / f"{crate}.rlib"

    @cache
    def below(self, crate: str) -> tuple[str, ...]:
        """All crates below, lowest first."""
        found: dict[str, None] = {}
        for name in self.on[crate]:
            if name in self.on:
                found.update(dict.fromkeys((*self.below(name), name)))
        return tuple(found)

    def sources(self, crate: str) -> list[Path]:
        files = sorted((self.top / "crates" / crate).glob("**/*"))
        return [file for file in files if file.suffix in (".rt", ".antt") and "out" not in file.parts]

    @cache
    def own(self, crate: str) -> str:
        sums = hashlib.sha256(" ".join(self.on[crate]).encode())
        for file in self.sources(crate):
            sums.update(str(file.relative_to(self.top)).encode() + file.read_bytes())
        return sums.hexdigest()

    @cache
    def stamp(self, crate: str) -> str:
        """Of all that a crate is made of, those below it included."""
        return hashlib.sha256("".join(map(self.own, (*self.below(crate), crate))).encode()).hexdigest()

    @cache
    def weight(self, crate: str) -> int:
        """The bytes of the longest way up from a crate: what has most above it goes first."""
        above = [self.weight(top) for top in self.on if crate in self.on[top]]
        return sum(file.stat().st_size for file in self.sources(crate)) + max(above, default=0)

    def has_tests(self, crate: str) -> bool:
        return any("#[test]" in file.read_text() for file in self.sources(crate) if file.suffix == ".rt")

    def words(self, crate: str, kind: str) -> list[str | Path]:
        is_program = (self.top / "crates" / crate / "src" / "main.rt").exists()
        builds = kind == "proof" and not is_program
        words: list[str | Path] = [KIT / "bin/rattle", "build" if builds else "check", "--crate-name", crate]
        words += ["src/main.rt" if is_program else "src/lib.rt", "--extern", f"std={KIT}/rlibs/std.rlib"]
        for name in self.on[crate]:
            words += ["--extern", f"{name}={self.library(name) if name in self.on else KIT / 'rlibs' / f'{name}.rlib'}"]
        for folder in (KIT / "rlibs", *(self.library(name).parent for name in self.below(crate))):
            words += ["-L", f"dependency={folder}"]
        words += ["--antt-project", KIT / "rattle/logic/antt-project.json", "--logic-built", KIT / "logic_built"]
        words += ["--links", f"{crate}=", "--jobs", "1", "--incremental", self.out(crate) / f"kept-{kind}"]
        return words + (["-o", self.library(crate)] if builds else ["--test"] if kind == "tests" else [])

    def tried(self, crate: str, kind: str) -> bool:
        """Whether a crate, or its tests, are proved; what passed before is not tried again."""
        self.out(crate).joinpath("rlib").mkdir(parents=True, exist_ok=True)
        mark, log = self.out(crate) / f"{kind}.stamp", self.out(crate) / f"{kind}.log"
        if mark.exists() and mark.read_text() == self.stamp(crate):
            return True
        began = time.time()
        with log.open("w") as said:
            folder = self.top / "crates" / crate
            status = subprocess.call(self.words(crate, kind), cwd=folder, stdout=said, stderr=subprocess.STDOUT)
        passed = status == 0 and "no proof:" not in log.read_text(errors="replace")
        if passed:
            mark.write_text(self.stamp(crate))
        print(time.strftime("%H:%M:%S"), crate, kind, "passed" if passed else "FAILED", f"{time.time() - began:.0f} s", flush=True)
        return passed


def run_all(clone: Clone, tasks: list[tuple[str, str]], jobs: int) -> list[tuple[str, str]]:
    """Tries all, so many at a time, each once those below it have passed; what did not pass."""
    passed: dict[tuple[str, str], bool] = {}
    running = {}
    with ThreadPoolExecutor(jobs) as pool:
        while tasks or running:
            for task in list(tasks):
                below = [passed.get((name, "proof")) for name in clone.below(task[0])]
                if False in below:
                    tasks.remove(task)
                    passed[task] = False
                elif len(running) < jobs and all(below):
                    tasks.remove(task)
                    running[pool.submit(clone.tried, *task)] = task
            if running:
                for done in wait(running, return_when=FIRST_COMPLETED).done:
                    passed[running.pop(done)] = done.result()
    return [task for task, well in passed.items() if not well]


def main():
    parser = argparse.ArgumentParser(description=__doc__, formatter_class=argparse.RawDescriptionHelpFormatter)
    parser.add_argument("clone", type=Path, help="a clone of what is committed")
    parser.add_argument("jobs", type=int, help="how many checks at a time")
    parser.add_argument("crates", nargs="*", help="these and those below them; all, where none is named")
    given = parser.parse_args()
    if not (KIT / "bin/rattle").exists():
        sys.exit(f"pregate.py: there is no toolchain in {KIT}")
    if not (given.clone / "crates.txt").exists():
        sys.exit(f"pregate.py: {given.clone} is no clone: it has no crates.txt")
    clone = Clone(given.clone.resolve())
    unknown = [crate for crate in given.crates if crate not in clone.on]
    if unknown:
        sys.exit(f"pregate.py: no crate {' '.join(unknown)}")
    named = given.crates or [*clone.on]
    crates = [crate for crate in clone.on if crate in {*named, *(low for crate in named for low in clone.below(crate))}]
    crates.sort(key=clone.weight, reverse=True)
    tasks = [(crate, "proof") for crate in crates] + [(crate, "tests") for crate in crates if clone.has_tests(crate)]
    failed = run_all(clone, tasks, given.jobs)
    print(f"{len(crates)} crates: " + ("all passed" if not failed else "not passed: " + " ".join(f"{crate} ({kind})" for crate, kind in failed)))
    sys.exit(1 if failed else 0)


main()
