"""Finds the program that tests run: the one that was built here, crates/lid/out/lid, where it is newer than all sources;
else the released one, where all checksums of release/SUMS hold, its own among them, and no source was added. Where there
is neither, a test that asks for it ends with one line and status 69."""

import functools
import hashlib
import os
import sys
from pathlib import Path

TOP = Path(__file__).resolve().parents[2]
BUILT = TOP / "crates" / "lid" / "out" / "lid"
RELEASED = TOP / "release" / "lid"
NOT_THERE = 69


def crates_of_program() -> list[str]:
    """The crates that `lid` stands on, and itself, by crates.txt."""
    lines = [line.split("#")[0] for line in (TOP / "crates.txt").read_text().splitlines()]
    on = {name.strip(): below.split() for name, _, below in (line.partition(":") for line in lines) if name.strip()}
    found, left = set(), ["lid"]
    while left:
        name = left.pop()
        if name in on and name not in found:
            found.add(name)
            left += on[name]
    return sorted(found)


def sources() -> list[str]:
    """The files that the program is built from: crates.txt, and of each crate its src/, specs/ and proofs/."""
    found = ["crates.txt"]
    for name in crates_of_program():
        for part in ("src", "specs", "proofs"):
            paths = sorted((TOP / "crates" / name / part).rglob("*"))
            found += [str(path.relative_to(TOP)) for path in paths if not path.is_dir()]
    return found


def newer_source() -> str | None:
    """A source, or a folder of sources, that was changed after the program was built here."""
    built = BUILT.stat().st_mtime_ns
    files = sources()
    for name in [*files, *sorted({os.path.dirname(file) for file in files} - {""})]:
        if (TOP / name).stat().st_mtime_ns > built:
            return name
    return None


def fault_of_release() -> str | None:
    """Why the released program is not that of these sources."""
    listed = {}
    for line in (RELEASED.parent / "SUMS").read_text().splitlines():
        digest, _, name = line.partition("  ")
        listed[name] = digest
    if "release/lid" not in listed:
        return "release/SUMS does not list release/lid"
    wanted = [*sources(), "release/lid"]
    for name in wanted:
        if name not in listed:
            return f"{name} was added since release/lid was built"
        if hashlib.sha256((TOP / name).read_bytes()).hexdigest() != listed[name]:
            return "release/lid is damaged" if name == "release/lid" else f"{name} is not as it was when release/lid was built"
    gone = sorted(set(listed) - set(wanted))
    return f"{gone[0]} is gone since release/lid was built" if gone else None


def told() -> tuple[Path | None, str]:
    """The program, and why another was not taken."""
    if not BUILT.exists():
        reason = "crates/lid/out/lid was not built"
    else:
        newer = newer_source()
        if newer is None:
            return BUILT, ""
        reason = f"{newer} is newer than crates/lid/out/lid"
    if not RELEASED.exists() or not (RELEASED.parent / "SUMS").exists():
        return None, f"{reason}, and release/lid or release/SUMS is not here"
    fault = fault_of_release()
    return (RELEASED, reason) if fault is None else (None, f"{reason}, and {fault}")


@functools.cache
def program() -> Path:
    """The program; where there is none of these sources, the end of the test."""
    found, reason = told()
    if found is None:
        name = Path(sys.argv[0]).name
        cure = "take a commit whose release is its own, or build by .ci/run or ./lid, which want rt"
        print(f"{name}: no program of these sources: {ascii(reason)[1:-1]}; {cure}", file=sys.stderr)
        sys.exit(NOT_THERE)
    return found


def program_name() -> str:
    """The program as a line tells it, from the top of the tree."""
    return str(program().relative_to(TOP))
