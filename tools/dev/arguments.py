"""What the tools for developers share: `--help` from their first words, numbers as arguments, and one line where something
that they need is not there."""

import argparse
import shutil
import sys
from pathlib import Path


def parser_of(doc: str | None) -> argparse.ArgumentParser:
    return argparse.ArgumentParser(description=doc, formatter_class=argparse.RawDescriptionHelpFormatter)


def numbers(doc: str | None, *names: str) -> list[int]:
    """The arguments, a number for each name."""
    parser = parser_of(doc)
    for name in names:
        parser.add_argument(name, type=int)
    given = vars(parser.parse_args())
    return [given[name] for name in names]


def nothing(doc: str | None):
    """There are no arguments."""
    parser_of(doc).parse_args()


def absolute(name: str) -> Path:
    """A program that is given by its path, which is never looked up among the commands."""
    return Path(name).absolute()


def need(*commands: str):
    """Ends the tool where one of these commands is not there."""
    for command in commands:
        if not shutil.which(command):
            sys.exit(f"{Path(sys.argv[0]).name}: it wants {command}, which is not here")


def need_top():
    """Ends the tool where it does not run at the top of a tree."""
    if not Path("crates.txt").is_file():
        sys.exit(f"{Path(sys.argv[0]).name}: run it at the top of the tree, where crates.txt stands")
