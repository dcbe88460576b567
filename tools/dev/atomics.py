#!/usr/bin/env python3
"""Counts the atomic operations of the calls of a hand on a shared board, and the calls of the board that a step of an
actor makes, by the sources.

No contract says how often a call of the board looks at a word: one that looks twice, or peeks, meets the same clauses
(of a step of an actor `step` says that it makes one call, of a turn nothing does). Nor does one say that `Void` and
`Stop` come only where this load found nothing, at a hand without the other end. So this reads:

- `lid_board`: each mention of an operation of `atomic_table` counts, as a method, by a path or as a value, through all
  functions of the crate. Each function makes the operation that CALLS has for it, once, in no branch, loop or closure,
  after no `return`, and no other function makes any. What the two looks answer hangs on the loaded word alone.
- `lid_shell`: each of the four steps at a desk makes one call of the board; a step of an actor comes to one of them.
- Elsewhere: no crate names `atomic_table`, and the threads of `lid_free_crew` and `lid_free` look, take and put by
  turns of actors alone, and split and join no hand. Where the kit is here, that no operation of its `atomic_table` is unknown.

It reads text, and takes a form that it does not know for a fault. Then it tries itself: each of the small wrong changes
of `atomics_tries.txt`, in a copy, must be refused. It says what holds; else a line for each fault, and status 1.

    tools/dev/atomics.py
    tools/dev/atomics.py --try    says also why each wrong change was refused
"""

import functools
import re
import shutil
import subprocess
import sys
from dataclasses import dataclass
from pathlib import Path

from arguments import parser_of

TOP = Path(__file__).resolve().parents[2]
BOARD, SHELL, THREADS = "lid_board", "lid_shell", ("lid_free_crew", "lid_free")
# the files of these in which ends go from hand to hand
HANDS = ("lid_free_crew/src/hiring.rt", "lid_free_crew/src/gathering.rt")

# the functions of `lid_board` that make an operation of `atomic_table`, each with which, and where it is not made on
# every way through. `start` makes one on a table of its own, for the key.
UNLESS_MEMORY = "unless an error comes before"
CALLS = {
    "Board::look_in": ("load", ""),
    "Board::look_out": ("load", ""),
    "Board::take": ("fetch_and", ""),
    "Board::put": ("fetch_or", ""),
    "Board::split": ("split_seat", UNLESS_MEMORY),
    "Board::join": ("join_seat", ""),
    "Attended::look_in": ("load", ""),
    "Attended::look_out": ("load", ""),
    "Attended::take": ("fetch_and", ""),
    "Attended::put": ("fetch_or", ""),
}
HELPERS = {
    "load_as": ("load", ""),
    "and_as": ("fetch_and", ""),
    "or_as": ("fetch_or", ""),
    "split_as": ("split_seat", ""),
    "join_both": ("join_seat", ""),
    "key_as": ("load_new_seat", UNLESS_MEMORY),
    "key_of": ("load_new_seat", UNLESS_MEMORY),
    "Board::start": ("load_new_seat", UNLESS_MEMORY),
    "Board::close": ("close_with", ""),
}

# all that `atomic_table` offers on a table's words and slots, and the names of its functions that touch no shared word
OPERATION = re.compile(
    r"\b(peek|load|store|swap|fetch_\w+|compare_exchange\w*|exchange|load_new_seat|swap_new_seat|swap_new_mark"
    r"|split_seat|join_seat|park\w*|wake_\w+|give|slot_mut|close_with|close(?=\s*\(\)))\b"
)
HARMLESS = set("new of_words vacant word_count slot_count word free turn blank into_badge into_seat".split())
ON_PERCHES = {"take", "close"}

# what would lead past the reading: other kinds of words, code that is made, and code without rules
FORBIDDEN = re.compile(
    r"\b(Perch|RuledPerch|Badge|unsafe|extern|static|macro_rules|include|sync|raw"
    r"|pub (?:table|shared|seat)|use [^;]* as \w+)\b"
)

# what stands in the functions of `lid_shell` that take a board: each mention of it, in order
STEPS = {
    "Desk::look_in": ["match board.look_in(station) {"],
    "Desk::look_out": ["match board.look_out(station) {"],
    "Desk::take": ["let token = board.take(self.ins.as_slice()[i]);"],
    "Desk::put": ["board.put(self.outs.as_slice()[j], token);"],
    "Actor::take": ["let token = self.desk.take(board, i);"],
    "Actor::put": ["let token = self.desk.put(board, j);"],
    "Actor::step": [
        "Next::LookIn(i) => self.desk.look_in(board, i),",
        "Next::LookOut(j) => self.desk.look_out(board, j),",
        "Next::Take(i) => self.take(board, i),",
        "Next::Put(j) => self.put(board, j),",
    ],
    "Actor::turn": ["let answer = self.step(board);"],
}

# how the looks answer, where HALF is `half_at(spot.place, found)`, of the word that was loaded
ANSWERS = {
    "Board::look_in": "if HALF == 0 { InLook::Void(found) } else { InLook::Token((HALF - FULL) as u32) }",
    "Board::look_out": "if HALF == 0 { OutLook::Room } else { OutLook::Stop(found) }",
    "Desk::look_in": "match board.look_in(station) {"
    " InLook::Token(token) => { self.position += 1; Answer::Token { station, token } }"
    " InLook::Void(word) => { self.position = 0; Answer::Void { station, word } } }",
    "Desk::look_out": "match board.look_out(station) {"
    " OutLook::Room => { self.position += 1; Answer::Room { station } }"
    " OutLook::Stop(word) => { self.position = 0; Answer::Stop { station, word } } }",
}

HEADER = re.compile(r"^impl(?:<[^>]*>)? (?:\w+(?:<[^>]*>)? for )?(\w+)")
FUNCTION = re.compile(r"^( *)(?:pub(?:\([^)]*\))? )?(?:\w+ )*fn (\w+)")


@dataclass
class Function:
    header: str
    body: str


@functools.cache
def code_of(text: str) -> str:
    """The program in a source: without comments and ghost items."""
    kept, ghost = [], False
    for line in text.split("\n"):
        line = re.sub(r"//.*", "", line)
        ghost = ghost or line.lstrip().startswith("ghost ")
        kept.append("" if ghost else line)
        ghost = ghost and not line.rstrip().endswith((";", ","))
    return "\n".join(kept)


def functions(sources: dict[str, str], crate: str) -> tuple[dict[str, Function], list[str]]:
    """The functions of a crate, each by its name, after its type where it is a method; and what is not clear there."""
    found, unclear = {}, []
    for file, text in sources.items():
        if not file.startswith(crate + "/"):
            continue
        lines, owner, many = code_of(text).split("\n"), "", len(re.findall(r"\bfn \w", code_of(text)))
        for number, line in enumerate(lines):
            if line.startswith("}"):
                owner = ""
            if header := HEADER.match(line):
                owner = header[1] + "::"
            if not (function := FUNCTION.match(line)):
                continue
            many -= 1
            # (a law has an empty body, on a line of its own)
            begin = next(i for i in range(number, len(lines)) if lines[i].rstrip().endswith(("{", "{}", ";")))
            if lines[begin].endswith("{"):
                end = next(i for i in range(begin + 1, len(lines)) if lines[i] == function[1] + "}")
                if owner + function[2] in found:
                    unclear.append(f"{crate}: {owner}{function[2]} is there twice: which is called cannot be told")
                found[owner + function[2]] = Function("\n".join(lines[number:begin]), "\n".join(lines[begin + 1 : end]))
        if many:
            unclear.append(f"{file}: a function does not begin a line")
    return found, unclear


def way_to(body: str, place: int) -> str:
    """On which ways through a body one does not come to a place just once; nothing where on all one does."""
    before = body[:place]
    statement = re.split(r"[;{}]", before)[-1]
    if before.count("{") != before.count("}") or re.search(r"\b(return|break|continue)\b", before):
        return "on some ways"
    if re.search(r"\||&&|\bwhile\b", statement):
        return "on some ways, or again"
    return UNLESS_MEMORY if "?" in before else ""


def mentions(body: str, name: str) -> list[int]:
    """Where a function is called or named: a method by `.name(` or by a path, another in any form."""
    plain = name.split("::")[-1]
    form = rf"(?:\.|::)\s*{plain}\s*(?:::<|\()|::\s*{plain}\b" if "::" in name else rf"\b{plain}\b"
    return [mention.start() for mention in re.finditer(form, body)]


def operations(name: str, all_of: dict[str, Function], path: tuple[str, ...] = ()) -> list[tuple[str, str]]:
    """The operations of a function, each with the ways on which it is not made just once."""
    body = all_of[name].body
    made = [(operation[1], way_to(body, operation.start())) for operation in OPERATION.finditer(body)]
    for other in all_of:
        if other == name and any(o != name and o.split("::")[-1] == name.split("::")[-1] for o in all_of):
            continue  # where another type has a method of this name, the call is that type's, which leads back here
        for place in mentions(body, other):
            way = way_to(body, place)
            if other in (*path, name):
                made.append((f"{other} again", way))
            else:
                made += [(kind, inner or way) for kind, inner in operations(other, all_of, (*path, name))]
    return made


def flat(text: str) -> str:
    return re.sub(r",(?= [)\]])", "", " ".join(text.split())).replace("( ", "(").replace(" )", ")")


def answer_of(name: str, body: str) -> str:
    """How a look answers, the half of the loaded word written HALF."""
    load = re.search(r"let found = load_as::<Brand>\([^;]*\);", body)
    if name.startswith("Desk") or not load:
        return flat(body[body.find("match") :])
    rest = re.sub(r"half_at\(\s*spot\.place,\s*found\s*\)", "HALF", body[load.end() :])
    rest, named = re.subn(r"let half = HALF;", "", rest)
    return flat(re.sub(r"\bhalf\b", "HALF", rest) if named else rest)


def faults_of_answers(all_of: dict[str, Function]) -> list[str]:
    told = {name: answer_of(name, all_of[name].body) for name in ANSWERS if name in all_of}
    return [
        f"{name}: that its answer hangs on the loaded word alone cannot be told: {answer}"
        for name, answer in told.items()
        if answer != ANSWERS[name]
    ]


def faults_of_board(all_of: dict[str, Function]) -> list[str]:
    wanted, faults = {**CALLS, **HELPERS}, []
    for name in {**wanted, **all_of}:
        made = operations(name, all_of) if name in all_of else []
        if made != ([wanted[name]] if name in wanted else []):
            told = ", ".join(f"{kind} {way}".rstrip() for kind, way in made) or "none"
            one = f"one {wanted[name][0]}" if name in wanted else "no operation"
            faults.append(f"{name}: {one} is wanted, and found: {told}")
    for name in ("look_in", "look_out", "take", "put"):
        wanted_body = rf"self\.board\.{name}\(self\.hand, station(, token)?\);?"
        if not re.fullmatch(wanted_body, all_of.get("Attended::" + name, Function("", "")).body.strip()):
            faults.append(f"Attended::{name}: it is not the call of the board and no more")
    if words := set(re.findall(r"\w+", all_of["half_at"].body)) - set("if else place word HALF 0 2".split()):
        faults.append(f"half_at: it reads {', '.join(sorted(words))}")
    return faults


def faults_of_shell(all_of: dict[str, Function]) -> list[str]:
    faults = []
    for name, function in all_of.items():
        found = [flat(line) for line in function.body.split("\n") if re.search(r"\bboard\b", line)]
        if found != STEPS.get(name, []):
            faults.append(f"{name}: {STEPS.get(name) or 'no board'} is wanted, and found: {found}")
        is_step, takes = name in STEPS, "Stations" in function.header
        if takes != is_step or (is_step and "board: &mut B" not in function.header):
            faults.append(f"{name}: which board it takes cannot be told")
        place = function.body.find("board")
        if name in STEPS and name not in ("Actor::step", "Actor::turn") and way_to(function.body, place):
            faults.append(f"{name}: its call of the board is made {way_to(function.body, place)}")
    if re.search(r"\b(loop|while|for)\b", all_of["Actor::step"].body):
        faults.append("Actor::step: there is a loop")
    return faults + [f"{name}: it is not there" for name in STEPS if name not in all_of]


def faults_elsewhere(sources: dict[str, str]) -> list[str]:
    faults = []
    for file, text in sources.items():
        crate, code = file.split("/")[0], code_of(text)
        if crate == BOARD and (word := FORBIDDEN.search(code)):
            faults.append(f"{file}: {word[0]}: what it does cannot be told by reading")
        if crate == SHELL and (word := re.search(r"\b(unsafe|macro_rules|include)\b", code)):
            faults.append(f"{file}: {word[0]}: what it does cannot be told by reading")
        if crate != BOARD and "atomic_table" in code:
            faults.append(f"{file}: it names atomic_table, of which {BOARD} alone makes boards")
        if crate in THREADS and (call := re.search(r"(?:\.|::)(look_in|look_out|take|put|step)\b", code)):
            faults.append(f"{file}: {call[1]}: a thread makes turns of actors alone")
        if crate in THREADS and file not in HANDS and (call := re.search(r"(?:\.|::)(split|join)\b", code)):
            faults.append(f"{file}: {call[1]}: hands are split and joined before and after all turns")
    return faults


def faults_of(sources: dict[str, str]) -> list[str]:
    board, unclear = functions(sources, BOARD)
    shell, others = functions(sources, SHELL)
    faults = unclear + others + faults_elsewhere(sources) + faults_of_board(board) + faults_of_shell(shell)
    return faults + faults_of_answers({**board, **shell})


def faults_of_kit() -> tuple[list[str], str]:
    """Functions of the kit's `atomic_table` that this does not know, and a word on how many it knows."""
    if not shutil.which("rt"):
        return [], "no kit here"
    page = subprocess.run(["rt", "doc"], capture_output=True, text=True, check=False).stdout.strip()
    files = Path(page).parent.glob("rattle/atomic_table/src/*.rt")
    offered = {name for file in files for name in re.findall(r"^ *pub fn (\w+)", file.read_text(), re.M)}
    unknown = [name for name in sorted(offered) if not OPERATION.fullmatch(name) and name not in HARMLESS | ON_PERCHES]
    faults = [f"atomic_table offers {name}, which this does not know" for name in unknown]
    return faults, f"{len(offered)} of the kit known"


def tries() -> list[tuple[str, str, str, str]]:
    """The wrong changes: what each does, the file, the old text and the new."""
    text = (Path(__file__).parent / "atomics_tries.txt").read_text()
    form = r"^# ([^\n]*)\n(\S+)\n--- old\n(.*?)\n--- new\n(.*?)\n--- end$"
    return [(what, file, old, new) for what, file, old, new in re.findall(form, text, re.M | re.S)]


def faults_of_tries(sources: dict[str, str], is_told: bool) -> list[str]:
    """The wrong changes that were not refused, or that could not be made."""
    faults = [] if len(tries()) >= 12 else ["try: atomics_tries.txt has too few wrong changes"]
    for what, file, old, new in tries():
        if sources.get(file, "").count(old) != 1:
            faults.append(f"try: {what}: its old text does not stand once in {file}")
        elif refusals := faults_of({**sources, file: sources[file].replace(old, new)}):
            print(f"{what}: {refusals[0]}") if is_told else None
        else:
            faults.append(f"try: {what}: it was not refused")
    return faults


def main():
    parser = parser_of(__doc__)
    parser.add_argument("--try", dest="is_told", action="store_true", help="say why each wrong change was refused")
    is_told = parser.parse_args().is_told
    files = sorted(TOP.glob("crates/*/src/**/*.rt"))
    sources = {str(file.relative_to(TOP / "crates")): file.read_text() for file in files}
    if not any(file.startswith(BOARD + "/") for file in sources):
        sys.exit(f"atomics.py: the sources of {BOARD} are not here")
    of_kit, known = faults_of_kit()
    faults = faults_of(sources) + of_kit
    faults += [] if faults else faults_of_tries(sources, is_told)
    for fault in faults:
        print(fault)
    if not faults:
        print(
            f"atomics.py: {len(CALLS)} calls of {BOARD} make one atomic operation each ({known}), "
            f"four steps of a desk one call each; {len(tries())} wrong changes refused"
        )
    sys.exit(bool(faults))


if __name__ == "__main__":
    main()
