#!/usr/bin/env python3
"""Moves definitions from one file of specs/ to another, of the same crate or one that it stands on, and mends the
imports in all crates. Run it at the top of the repository, on a tree whose changes are committed.

    tools/dev/move_definitions.py CRATE/FILE CRATE/FILE NAME.. [--head TEXT]

As in `lid_rate/Rates lid_rate/Exact IsExactPart --head 'That a part tells the ratio, exactly.'`. The second file is
made where it is not there, with the line of comment --head, and gets its line in specs/Lib.antt. A definition takes
the comment that stands before it along. Lines of .antt and .rt that name a whole path are told, and left.
"""

import re
import sys
from pathlib import Path

from arguments import need_top, parser_of

NAME = r"[A-Za-z_][\w'-]*"
HEAD = re.compile(rf"^(?:pub |abbrev |unfoldable )*(?:(?:record|data) ({NAME})|({NAME})\s*:)", re.M)
USE = re.compile(r"^((?:pub |ghost )*use )(Rattle[\w.]*)\.\{([^}]*)\}(;?)$")


class File:
    """A file of specs/: its comment, its imports by module, and its definitions in order."""

    def __init__(self, place: str, head: str):
        crate, name = place.split("/")
        self.module = f"Rattle.{crate}.specs.{name}"
        self.path = Path("crates", crate, "specs", f"{name}.antt")
        text = self.path.read_text() if self.path.exists() else f"-- {head}\n"
        first, *self.parts = re.split(r"\n\n+", text.rstrip("\n"))
        self.comment = [line for line in first.split("\n") if line.startswith("--")]
        self.uses = [line for line in first.split("\n") if not line.startswith("--")]

    def write(self):
        self.path.write_text("\n\n".join(["\n".join(self.comment + merged(self.uses)), *self.parts]) + "\n")


def names_of(part: str) -> set[str]:
    return {one or other for one, other in HEAD.findall(part)}


def is_used(name: str, text: str) -> bool:
    """Whether an imported name, as `f`, `f as g` or `◌+◌`, stands in a text without its comments."""
    word = name.split(" as ")[-1].strip()
    if "◌" in word:
        return all(piece in text for piece in word.split("◌") if piece)
    return re.search(rf"(?<![\w'-]){re.escape(word)}(?![\w'-])", text) is not None


def code(parts: list[str]) -> str:
    return "\n".join(re.sub(r"--.*$", "", part, flags=re.M) for part in parts)


def merged(uses: list[str]) -> list[str]:
    """One line for each module, where the first stood."""
    lines, places = [], {}
    for line in uses:
        found = USE.match(line)
        if not found:
            lines += [] if line in lines else [line]
            continue
        start, module, names, end = found.groups()
        have = places.setdefault((start, module), (len(lines), []))
        have[1].extend(name for name in map(str.strip, names.split(",")) if name not in have[1])
        line = f"{start}{module}.{{{', '.join(have[1])}}}{end}"
        lines[have[0] : have[0] + 1] = [line]
    return lines


def needed(uses: list[str], parts: list[str]) -> list[str]:
    """The imports that these definitions use."""
    text, lines = code(parts), []
    for line in uses:
        found = USE.match(line)
        if found:
            names = [name for name in map(str.strip, found[3].split(",")) if is_used(name, text)]
            lines += [f"{found[1]}{found[2]}.{{{', '.join(names)}}}{found[4]}"] if names else []
        elif (word := re.search(r" as (\w+)$", line)) is None or f"{word[1]}." in text:
            lines.append(line)
    return lines


def mend(path: Path, old: str, new: str, names: set[str]):
    """Takes the names from where they are now."""
    text = path.read_text()
    if f"{old}." not in text:
        return
    lines = []
    for line in text.split("\n"):
        found = USE.match(line)
        taken = [name for name in map(str.strip, found[3].split(","))] if found and found[2] == old else []
        moved = [name for name in taken if name.split(" as ")[0].strip() in names]
        stay = [name for name in taken if name not in moved]
        if not moved:
            lines.append(line)
            continue
        lines += [f"{found[1]}{module}.{{{', '.join(some)}}}{found[4]}" for module, some in ((old, stay), (new, moved)) if some]
    heads = [n for n, line in enumerate(lines) if USE.match(line) and USE.match(line)[2] == new]
    if len(heads) > 1:
        line = merged([lines[n] for n in heads])
        lines = [line[0] if n == heads[0] else text for n, text in enumerate(lines) if n == heads[0] or n not in heads]
    for word in re.findall(rf"{re.escape(old)}\.({NAME})", text):
        if word in names:
            print(f"{path}: names {old}.{word} by its path")
    if "\n".join(lines) != text:
        path.write_text("\n".join(lines))


def reaches(module: str, other: str, seen: set[str]) -> bool:
    """Whether a file of specs/ imports another, by others too."""
    _, crate, _, name, *_ = (*module.split("."), "", "", "")
    path = Path("crates", crate, "specs", f"{name}.antt")
    if module in seen or not path.is_file():
        return False
    seen.add(module)
    below = [found[2] for line in path.read_text().split("\n") if (found := USE.match(line))]
    return other in below or any(reaches(one, other, seen) for one in below)


def main():
    parser = parser_of(__doc__)
    parser.add_argument("OLD")
    parser.add_argument("NEW")
    parser.add_argument("NAME", nargs="+")
    parser.add_argument("--head", default="")
    given = parser.parse_args()
    need_top()
    names = set(given.NAME)
    old, new = File(given.OLD, ""), File(given.NEW, given.head)
    moved = [part for part in old.parts if names_of(part) & names]
    if set().union(*map(names_of, moved)) != names:
        sys.exit(f"{old.path}: these do not stand apart from others: {' '.join(sorted(set().union(*map(names_of, moved)) ^ names))}")
    stay = [part for part in old.parts if part not in moved]
    back = [name for part in stay for name in names_of(part) if is_used(name, code(moved))]
    forth = [name for name in given.NAME if is_used(name, code(stay))]
    if back and forth:
        sys.exit(f"{' '.join(back)} and {' '.join(forth)} would need each other")
    if forth and reaches(new.module, old.module, set()):
        sys.exit(f"{new.path} stands on {old.path}, which would need {' '.join(forth)} of it")
    if back and reaches(old.module, new.module, set()):
        sys.exit(f"{old.path} stands on {new.path}, which would need {' '.join(back)} of it")
    place = next((n for n, part in enumerate(new.parts) if any(is_used(name, code([part])) for name in names)), len(new.parts))
    new.parts[place:place] = moved
    new.uses += needed(old.uses, moved) + ([f"use {old.module}.{{{', '.join(back)}}}"] if back else [])
    new.uses = needed([line for line in new.uses if f" {new.module}." not in line], new.parts)
    old.uses = needed(old.uses, stay) + ([f"use {new.module}.{{{', '.join(forth)}}}"] if forth else [])
    old.parts = stay
    if not new.path.exists():
        listed = new.path.with_name("Lib.antt")
        listed.write_text(listed.read_text() + f"pub mod {new.path.stem}\n")
    old.write()
    new.write()
    for path in sorted(Path("crates").rglob("*")):
        if path.suffix in (".antt", ".rt") and "out" not in path.parts and path not in (old.path, new.path):
            mend(path, old.module, new.module, names)


main()
