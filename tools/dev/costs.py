#!/usr/bin/env python3
"""Tells what a run of the gate costs: the processor seconds of each crate's proof, tests and edits.

    tools/dev/costs.py rt ci            what was not kept from earlier runs
    tools/dev/costs.py rt ci --anew     all, from nothing

The command runs as it would alone, and what it prints goes where it would; the table comes after it,
on standard error, and the status is that of the command. Figures come from looking at the processes
of the prover once a second, which takes a hundredth of a processor, so each process loses up to a second;
`all` is exact.
A crate is over its budget where a figure is marked: 120 s for its proof, 60 for its tests, 150 for
its edits, of which one is a further proof of the crate.
"""

import os
import resource
import subprocess
import sys
import time

BUDGETS = {"proof": 120, "tests": 60, "edits": 150}
TICK = os.sysconf("SC_CLK_TCK")


def stats():
    """What /proc tells of each process: (parent, name, processor seconds, with those of its ended children)."""
    found = {}
    for pid in filter(str.isdigit, os.listdir("/proc")):
        try:
            with open(f"/proc/{pid}/stat", encoding="utf-8", errors="replace") as it:
                head, _, tail = it.read().rpartition(")")
        except OSError:
            continue
        words = tail.split()
        spent = sum(map(int, words[11:15])) / TICK
        found[int(pid)] = int(words[1]), head.partition("(")[2], spent, words[19]
    return found


def kind_of(pid):
    """Which crate a prover's process works on, and for what."""
    try:
        with open(f"/proc/{pid}/cmdline", "rb") as it:
            words = it.read().decode(errors="replace").split("\0")
        folder = os.readlink(f"/proc/{pid}/cwd")
    except OSError:
        return None
    if "--crate-name" not in words or words[1:2] not in (["check"], ["build"]):
        return None
    crate = words[words.index("--crate-name") + 1]
    if "rt-edit" in folder:
        return crate, "edits"
    if "--crate-checked" in words:
        return crate, "builds"
    return crate, "tests" if "--test" in words else "proof"


def below(found, top):
    """The processes that descend from one."""
    children = {}
    for pid, (parent, *_) in found.items():
        children.setdefault(parent, []).append(pid)
    todo, seen = [top], []
    while todo:
        pid = todo.pop()
        seen.append(pid)
        todo += children.get(pid, [])
    return seen


def look(top, kinds, spent):
    """Notes what each process of the prover below `top` has spent by now."""
    found = stats()
    for pid in below(found, top):
        if pid not in found or found[pid][1] != "rattle":
            continue
        parent = found[pid][0]
        if parent in found and found[parent][1] == "rattle":
            continue
        key = pid, found[pid][3]
        if key not in kinds:
            kinds[key] = kind_of(pid)
        whole = sum(found[it][2] for it in below(found, pid))
        spent[key] = max(whole, spent.get(key, 0))


def told(kinds, spent):
    """The table by crate."""
    table = {}
    for key, seconds in spent.items():
        if kinds[key]:
            crate, kind = kinds[key]
            row = table.setdefault(crate, dict.fromkeys(("proof", "tests", "edits", "builds"), 0))
            row[kind] += seconds
    lines = [f"{'crate':20}{'proof':>9}{'tests':>9}{'edits':>9}{'builds':>9}"]
    for crate, row in sorted(table.items()):
        cells = [f"{row[it]:.0f}{'!' if row[it] > BUDGETS.get(it, 1e9) else ' '}" for it in row]
        lines.append(f"{crate:20}" + "".join(f"{it:>9}" for it in cells))
    sums = [sum(row[it] for row in table.values()) for it in ("proof", "tests", "edits", "builds")]
    lines.append(f"{'sum':20}" + "".join(f"{it:>8.0f} " for it in sums))
    return lines


def main(words):
    if not words or words == ["--help"]:
        print(__doc__.strip())
        sys.exit(0 if words else 2)
    began = time.time()
    kinds, spent = {}, {}
    run = subprocess.Popen(words)
    while run.poll() is None:
        look(run.pid, kinds, spent)
        time.sleep(1)
    used = resource.getrusage(resource.RUSAGE_CHILDREN)
    lines = told(kinds, spent)
    whole = used.ru_utime + used.ru_stime
    lines.append(f"all: {whole / 60:.1f} processor minutes, {(time.time() - began) / 60:.1f} by the clock")
    print("\n".join(lines), file=sys.stderr)
    sys.exit(run.returncode)


if __name__ == "__main__":
    main(sys.argv[1:])
