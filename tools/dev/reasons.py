#!/usr/bin/env python3
"""Prints why each must-fail edit was refused that a gate has tried on this machine, one line each.

    tools/dev/reasons.py [WORD]

WORD: only lines that have it, as `little`, which the toolchain says of an edit that is refused only since a proof
names what it took away: that says little of the contract, and the edit should change a value and keep the names.
"""

import json
import sys
from pathlib import Path

from arguments import parser_of

KEPT = Path("/opt/rattle-kept/edits")


def main():
    parser = parser_of(__doc__)
    parser.add_argument("WORD", nargs="?", default="")
    word = parser.parse_args().WORD
    if not KEPT.is_dir():
        sys.exit(f"reasons.py: no gate has tried edits on this machine: there is no {KEPT}")
    lines = set()
    for path in KEPT.iterdir():
        text = " ".join(json.loads(path.read_text()).get("text", "").split())
        lines.add(text.removeprefix("must-fail ").replace("refused, as it must be", "refused")[:300])
    for line in sorted(lines):
        if word in line:
            print(line)


main()
