#!/usr/bin/env python3
"""Prints what the public functions of the crates promise, one clause a line, so that two states of
the tree can be compared:

    tools/dev/clauses.py > before
    tools/dev/clauses.py > after
    diff before after

A line is `crate function: clause`, with the spaces of a clause drawn together. With --specs the
definitions of specs/ are printed too, an equation or a field a line, without comments.
"""

import pathlib
import re
import sys

from arguments import parser_of

HEAD = re.compile(r"^ *pub (?:const |unsafe )*fn (\w+)", re.M)
TRAIT = re.compile(r"^pub trait (\w+)", re.M)
METHOD = re.compile(r"^    fn (\w+)", re.M)
GHOST = re.compile(r"^ +(?:pub )?ghost (\w+)\s*[:=]\s*\{", re.M)


def closing(text, at):
    """The place after the brace that closes the one at `at`."""
    depth = 0
    for place in range(at, len(text)):
        depth += {"{": 1, "}": -1}.get(text[place], 0)
        if depth == 0:
            return place + 1
    return len(text)


def clauses(text, at):
    """The signature and the clauses of the function whose head begins at `at`."""
    found, place = [], text.index("(", at)
    signature = text[at:place]
    word = re.compile(r"\b(requires|ensures)\*?\s*(\w+\s*)?\{|^ *\{|;", re.M)
    while True:
        step = word.search(text, place)
        if step is None:
            break
        if not found:
            signature = text[at : step.start()]
        if not step[1]:
            break
        end = closing(text, step.end() - 1)
        found.append(text[step.start() : end])
        place = end
    return [signature, *found]


def shown(text):
    """The text without comments, its spaces drawn together."""
    text = re.sub(r"^ *//.*$", "", text, flags=re.M)
    return re.sub(r"\s+", " ", text).strip()


def exported(crate):
    """The names that the root file gives out; of a program none, and then all count."""
    root = crate / "src" / "lib.rt"
    text = root.read_text() if root.exists() else ""
    uses = re.findall(r"^pub use [\w:]+?::(?:\{([^}]*)\}|(\w+));", text, re.M)
    return set(re.findall(r"\w+", " ".join(many + one for many, one in uses)))


def owner(text, head):
    """The type of the `impl` that a method stands in; the function's own name where it is none."""
    if text[head.start()] != " ":
        return head[1]
    around = re.findall(r"^impl[^{]*?(\w+)(?:<[^{]*>)? (?:where[^{]*)?\{", text[: head.start()], re.M)
    return around[-1] if around else head[1]


def of_sources(crate):
    given = exported(crate)
    for file in sorted((crate / "src").glob("*.rt")):
        if "test" in file.name:
            continue
        text = file.read_text()
        for head in HEAD.finditer(text):
            if given and file.name != "lib.rt" and owner(text, head) not in given:
                continue
            for clause in clauses(text, head.start()):
                yield f"{crate.name} {head[1]}: {shown(clause)}"


def of_traits(crate):
    """The clauses of the methods of public traits, and the ghost members of types and traits."""
    for file in sorted((crate / "src").glob("*.rt")):
        text = file.read_text()
        for trait in TRAIT.finditer(text):
            end = closing(text, text.index("{", trait.end()))
            for method in METHOD.finditer(text, trait.end(), end):
                for clause in clauses(text, method.start()):
                    yield f"{crate.name} {trait[1]}.{method[1]}: {shown(clause)}"
        for ghost in GHOST.finditer(text):
            end = closing(text, ghost.end() - 1)
            yield f"{crate.name} {file.stem}: {shown(text[ghost.start() : end])}"


def of_specs(crate):
    for file in sorted((crate / "specs").glob("*.antt")):
        for line in file.read_text().split("\n"):
            line = line.split("--")[0].rstrip()
            if line and not line.startswith(("use ", "pub mod ")):
                yield f"{crate.name} {file.stem}: {line}"


def main():
    parser = parser_of(__doc__)
    parser.add_argument("--specs", action="store_true", help="definitions too")
    specs = parser.parse_args().specs
    top = pathlib.Path(__file__).resolve().parents[2]
    crates = sorted(it for it in (top / "crates").iterdir() if not it.name.endswith("_tests"))
    lines = [line for crate in crates for line in of_sources(crate)]
    lines += [line for crate in crates for line in of_traits(crate)]
    if specs:
        lines += [line for crate in crates for line in of_specs(crate)]
    print("\n".join(lines if specs else sorted(lines)))


if __name__ == "__main__":
    main()
