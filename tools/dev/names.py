#!/usr/bin/env python3
"""Looks at names in proofs and definitions, before a gate does. Run it at the top; it is silent where all is well.

    tools/dev/names.py

It prints each import of a name that does not stand in the file that it is imported from (or whose file is not
there), as after a lemma has moved, and each lemma that no other line of the tree names. Examples that are proofs of
nothing else (`proofs/Examples.antt`) are left out.
"""

import re
from collections import Counter
from pathlib import Path

from arguments import need_top, nothing

IMPORT = re.compile(r"use (?:Rattle\.)?(lid_\w+)\.(proofs|specs)\.([\w.]+)\.\{([^}]*)\}")
LEMMA = re.compile(r"^( *)(?:pub )?(?:abbrev )?([a-z_][\w'-]*) :", re.MULTILINE)
WORD = re.compile(r"[A-Za-z_][\w'?!-]*")
MADE = ("declared", "Goals", "Given")  # what the toolchain makes


def files() -> dict[Path, str]:
    found = [p for end in ("antt", "rt") for p in Path("crates").glob(f"*/**/*.{end}") if "out" not in p.parts]
    return {path: path.read_text() for path in found}


def wrong_imports(texts: dict[Path, str]):
    for path, text in texts.items():
        for crate, kind, module, names in IMPORT.findall(text):
            place = module.split(".")
            if any(made in place for made in MADE):
                continue
            file = Path("crates", crate, kind, *place).with_suffix(".antt")
            if file not in texts:
                print(f"{path}: no file {file}")
                continue
            for name in names.split(","):
                name = name.split(" as ")[0].strip()
                if name and name not in texts[file]:
                    print(f"{path}: no {name} in {file}")


def dead_lemmas(texts: dict[Path, str]):
    bare = {path: re.sub(r"^\s*--.*$", "", text, flags=re.MULTILINE) for path, text in texts.items()}
    told = Counter(word for text in bare.values() for word in set(WORD.findall(text)))
    for path, text in bare.items():
        if "proofs" not in path.parts or path.name in ("Answers.antt", "Invariants.antt", "Examples.antt"):
            continue
        for lemma in LEMMA.finditer(text):
            indent, name = lemma.groups()
            head = re.compile(rf"{indent}(?:pub )?(?:abbrev )?{re.escape(name)}(?![\w'-])")
            rest = [line for line in text[lemma.start() :].splitlines() if name in WORD.findall(line)]
            used = [line for line in rest if not head.match(line) or WORD.findall(line).count(name) > 1]
            if told[name] == 1 and not used and name not in WORD.findall(text[: lemma.start()]):
                print(f"{path}: nothing names {name}")


def main():
    nothing(__doc__)
    need_top()
    texts = files()
    wrong_imports(texts)
    dead_lemmas(texts)


main()
