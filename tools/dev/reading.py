#!/usr/bin/env python3
"""Prints the files of definitions on which the contract of `lid_run` rests, so that docs/READING.md
can be kept true: the file, its lines, and how many of its definitions are used, with their names
where they are few. Run it at the top of the repository."""

import collections
import pathlib
import re

from arguments import need_top, nothing

NAME = r"[A-Za-z_][\w'-]*"
USE = re.compile(r"^(?:pub )?use (Rattle\.[\w.]+)\.\{([^}]*)\}", re.M)
HEAD = re.compile(rf"^(?:pub |abbrev |unfoldable )*(?:(?:record|data) ({NAME})|({NAME})\s*:)")
TOP = pathlib.Path("crates/lid_top/src/top.rt")


def uses(text):
    """The names that a file takes from others, each with its module and its name there."""
    taken = {}
    for module, names in USE.findall(text):
        for name in filter(None, (part.strip() for part in names.split(","))):
            there, _, here = name.partition(" as ")
            taken[(here or there).strip()] = (module, there.strip())
    return taken


def definitions(text):
    """The text of each definition of a file, and of which one a constructor is."""
    found, constructors, current = {}, {}, None
    for line in re.sub(r"--.*$", "", text, flags=re.M).split("\n"):
        head = HEAD.match(line)
        if head:
            current = head[1] or head[2]
            found[current] = ""
        if current and not line.startswith(("use ", "pub use ")):
            found[current] += line + "\n"
    for name, body in found.items():
        if re.match(r"(?:pub )?data ", body):
            constructors |= {c: name for c in re.findall(rf"^\s+({NAME})\s*:", body, re.M)}
    return found, constructors


def kind(line):
    """What a line of a file is there for."""
    word = line.strip().partition(" ")[0]
    return {"": "blank", "use": "imports"}.get(word, "comments" if word.startswith("--") else "imports" if line.startswith("pub use ") else "definitions")


def main():
    nothing(__doc__)
    need_top()
    files = {}
    for path in sorted(pathlib.Path("crates").glob("*/specs/*.antt")):
        files[f"Rattle.{path.parts[1]}.specs.{path.stem}"] = path
    read = {m: (uses(p.read_text()), *definitions(p.read_text())) for m, p in files.items()}
    seen = set()

    def visit(module, name):
        if module not in read:
            return
        taken, found, constructors = read[module]
        name = constructors.get(name, name)
        if name in taken and name not in found:
            visit(*taken[name])
        if name not in found or (module, name) in seen:
            return
        seen.add((module, name))
        for word in set(re.findall(NAME, found[name])):
            if word in found or word in constructors:
                visit(module, word)
            elif word in taken:
                visit(*taken[word])

    text = TOP.read_text()
    start = text.index("pub fn lid_run")
    contract = text[start : text.index("\n{", start)]
    for name, place in uses(text.replace("ghost use", "use")).items():
        if re.search(rf"\b{name}\b", contract):
            visit(*place)
    by_file = collections.defaultdict(list)
    for module, name in sorted(seen):
        by_file[module].append(name)
    lines, kinds = 0, collections.Counter()
    for module, names in sorted(by_file.items()):
        text = files[module].read_text().splitlines()
        size = len(text)
        lines += size
        kinds.update(map(kind, text))
        few = ": " + ", ".join(names) if len(names) < 8 else ""
        print(f"{files[module]} {size} lines, {len(names)} of {len(read[module][1])}{few}")
    print(f"{len(by_file)} files, {lines} lines: {kinds['definitions']} of definitions, {kinds['comments']} of comments on them, "
          f"{kinds['imports']} of imports, {kinds['blank']} blank")


main()
