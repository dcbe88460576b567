#!/usr/bin/env python3
"""Renames a definition of specs/ in all crates: where it stands, where it is imported, and what is said by it there.
Run it at the top of the repository, on a tree whose changes are committed.

    tools/dev/rename.py [--dry] CRATE/FILE.NAME=NEW..

As in `lid_size/Sizing.IsBefore=ComesBefore`. Labels of clauses and fields of records (`x.name`, `name =`) keep their
names, and so do functions of the code: only clauses and imports of definitions change in .rt. Comments change where
the name is in capitals or between backticks. A file that already has the new name is refused, and nothing is written.
Told, to be looked at: places where the new name is bound or defined. What it gives is for the prover to judge.
"""

import re
import sys
from pathlib import Path

from arguments import need_top, parser_of

USE = re.compile(r"^((?:pub |ghost )*use )(Rattle[\w.]*)\.\{([^}]*)\}(;?)$", re.M)
AS = re.compile(r"^(?:pub |ghost )*use (Rattle[\w.]*) as (\w+);?$", re.M)


def files() -> list[Path]:
    return [path for kind in ("antt", "rt") for path in sorted(Path("crates").rglob(f"*.{kind}")) if "/out/" not in str(path)]


def imported(text: str, modules: set[str], name: str) -> set[str]:
    """By which words a text names what these modules give out as `name`."""
    words = set()
    for found in USE.finditer(text):
        if found[2] in modules:
            for one in map(str.strip, found[3].split(",")):
                if one.split(" as ")[0].strip() == name:
                    words.add(one.split(" as ")[-1].strip())
    return words


def module_of(path: Path) -> str:
    crate, *rest = path.with_suffix("").parts[1:]
    return ".".join(["Rattle", crate, *rest])


def token(name: str) -> str:
    return rf"(?<![\w'.«-]){re.escape(name)}(?![\w'»-])"


def said(text: str) -> list[bool]:
    """Which lines of a source are of clauses, imports of definitions or tactics."""
    lines, depth = [], 0
    for line in text.split("\n"):
        starts = depth == 0 and re.match(r"\s*(?:requires|ensures|ghost|invariant)\b", line) is not None
        lines.append(starts or depth > 0 or "#[tactic" in line)
        if starts or depth > 0:
            depth += line.count("{") - line.count("}")
    return lines


def in_code(code: str, name: str, new: str) -> str:
    """A line without its comment; labels of clauses and fields of records keep their names."""

    def word(found):
        before, after = code[: found.start()], code[found.end() :]
        is_label = re.fullmatch(r"\s*(?:pub )?(?:requires|ensures|ghost|invariant)\s+", before) is not None
        is_field = re.match(r" = ", after) is not None and re.search(r"(?:^\s+|[{;]\s*)$", before) is not None
        return name if is_label or is_field else new

    return re.sub(token(name), word, code)


def renamed(text: str, modules: set[str], name: str, new: str, is_home: bool, is_code: bool) -> str:
    words = imported(text, modules, name)
    for found in AS.finditer(text):
        if found[1] in modules:
            text = re.sub(rf"(?<![\w.]){found[2]}\.{re.escape(name)}(?![\w'-])", f"{found[2]}.{new}", text)
    by_path = {module: rf"(?<![\w.]){re.escape(module)}\.{re.escape(name)}(?![\w'-])" for module in modules}
    for module, pattern in by_path.items():
        text = re.sub(pattern, f"{module}.{new}", text)
    for module in modules:
        text = text.replace(f"{module[module.index('.specs.') + 1:].replace('.', '::')}::{name})", f"{module[module.index('.specs.') + 1:].replace('.', '::')}::{new})") if is_code else text
    if words <= {name} and (words or is_home):
        lines = []
        for line, is_said in zip(text.split("\n"), said(text) if is_code else [True] * len(text.split("\n"))):
            code, dash, comment = line.partition("--")
            if name[0].isupper():
                comment = re.sub(token(name), new, comment)
            comment = re.sub(rf"(?<=`){re.escape(name)}(?=`)", new, comment)
            lines.append((in_code(code, name, new) if is_said else code) + dash + comment)
        return "\n".join(lines)
    if words:

        def line(found):
            some = [re.sub(rf"^{re.escape(name)}(?= as |$)", new, one) for one in map(str.strip, found[3].split(","))]
            return f"{found[1]}{found[2]}.{{{', '.join(some)}}}{found[4]}" if found[2] in modules else found[0]

        return USE.sub(line, text)
    return text


def givers(all_texts: dict[Path, str], home: str, name: str) -> set[str]:
    """The modules that give a name out: where it stands, and those that pass it on."""
    modules, before = {home}, set()
    while modules != before:
        before = set(modules)
        for path, text in all_texts.items():
            if path.suffix == ".antt" and "/specs/" in str(path):
                for found in USE.finditer(text):
                    if found[1].startswith("pub") and found[2] in modules and name in map(str.strip, found[3].split(",")):
                        modules.add(module_of(path))
    return modules


def main():
    parser = parser_of(__doc__)
    parser.add_argument("--dry", action="store_true")
    parser.add_argument("CHANGE", nargs="+")
    given = parser.parse_args()
    need_top()
    texts = {path: path.read_text() for path in files()}
    first = dict(texts)
    for change in given.CHANGE:
        form = re.fullmatch(r"(\w+)/(\w+)\.([\w'-]+)=([\w'-]+)", change)
        if not form:
            sys.exit(f"{change}: not of the form CRATE/FILE.NAME=NEW")
        crate, file, name, new = form.groups()
        home = Path("crates", crate, "specs", f"{file}.antt")
        if home not in texts:
            sys.exit(f"{home} is not there")
        if not re.search(rf"^(?:pub |abbrev |unfoldable )*(?:record |data )?{re.escape(name)}(?![\w'-])", texts[home], re.M):
            sys.exit(f"{home} does not define {name}")
        modules = givers(texts, module_of(home), name)
        count, touched = 0, []
        for path, text in texts.items():
            if name not in text:
                continue
            after = renamed(text, modules, name, new, path == home, path.suffix == ".rt")
            if after == text:
                continue
            if re.search(token(new), text):
                sys.exit(f"{path} has {new} already")
            touched.append(path)
            count += sum(a != b for a, b in zip(text.split("\n"), after.split("\n")))
            for number, line in enumerate(after.split("\n"), 1):
                if re.search(rf"λ[^.]*(?<![\w'.]){re.escape(new)}(?![\w'])[^.]*\.|(?:let|pub|where|;|\{{) {re.escape(new)} (?::|=)", line.split("--")[0]):
                    print(f"{path}:{number}: bound: {line.strip()[:150]}")
            texts[path] = after
        print(f"{change}: {count} lines of {len(touched)} files of {len({p.parts[1] for p in touched})} crates")
    if not given.dry:
        for path, text in texts.items():
            if text != first[path]:
                path.write_text(text)


if __name__ == "__main__":
    main()
