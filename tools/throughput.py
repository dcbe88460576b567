"""What tools/critical, tools/draw and tools/explore share: the program asked about many placements of one netlist, and
the loops of its certificates by names (docs/THROUGHPUT.md)."""

import functools
import itertools
import os
import subprocess
import sys
import tempfile
from collections.abc import Callable
from concurrent.futures import ThreadPoolExecutor
from dataclasses import dataclass
from fractions import Fraction
from pathlib import Path

from netlist import LID, Channel, System, read_text, refuse

PLACES = 16  # the greatest capacity
RELAYS = 64  # the most relay stations of a channel
Placement = list[list[int]]  # for each channel the capacities of its stations


class Fault(Exception):
    """The program refused: its line, and its status."""


@functools.cache
def folder() -> tempfile.TemporaryDirectory:
    return tempfile.TemporaryDirectory(prefix="lid-")


@functools.lru_cache(maxsize=4)
def kept(net: str) -> str:
    """The name of a file that holds this netlist."""
    file, name = tempfile.mkstemp(".blif", dir=folder().name)
    with open(file, "w", errors="surrogateescape") as held:
        held.write(net)
    return name


def ask(
    net: str,
    command: str,
    stations: str | None,
    options: tuple[str, ...] = (),
    files: tuple[str, ...] = (),
    patience: int | None = None,
    program: str = LID,
    option: str = "--stations",
) -> str:
    """What the program prints for a netlist with a text of stations, or of another option."""
    placed = [f"{option}=/dev/stdin"] if stations is not None else []
    words = [program, command, *options, *placed, "--", kept(net), *files]
    given = (stations or "").encode(errors="surrogateescape")
    try:
        ran = subprocess.run(words, input=given, capture_output=True, timeout=patience, check=False)
    except OSError as fault:
        raise Fault(f"{program}: {fault.strerror}", 69) from None
    if ran.returncode:
        raise Fault(ran.stderr.decode(errors="backslashreplace").strip() or f"{program} ended with {ran.returncode}", ran.returncode)
    return ran.stdout.decode(errors="surrogateescape")


def run(main: Callable[[], None]):
    """Runs a tool: what the program refuses, and an output that nobody reads, end it with one line or none."""
    try:
        main()
        sys.stdout.flush()
    except Fault as fault:
        line, status = fault.args
        print(line, file=sys.stderr)
        sys.exit(status if status > 0 else 1)
    except BrokenPipeError:
        os.dup2(os.open(os.devnull, os.O_WRONLY), sys.stdout.fileno())
        sys.exit(4)
    except KeyboardInterrupt:
        sys.exit(130)


@dataclass
class Design:
    """A netlist, its system, and the placement that is given."""

    net: str
    options: tuple[str, ...]
    system: System

    @property
    def placement(self) -> Placement:
        return [channel.capacities for channel in self.system.channels]

    def text(self, placement: Placement) -> str:
        """The text of stations of a placement."""
        lines = [
            " ".join([channel.name(), str(len(capacities) - 1), *map(str, capacities)])
            for channel, capacities in zip(self.system.channels, placement)
        ]
        return "\n".join(["lid-stations 2", *lines]) + "\n"

    def settle(self, placement: Placement):
        """Makes another placement that of the system."""
        for channel, capacities in zip(self.system.channels, placement):
            channel.capacities = list(capacities)
        self.system.number()

    def ask(self, command: str, placement: Placement, *options: str) -> str:
        return ask(self.net, command, self.text(placement), (*self.options, *options))

    def parts(self, placement: Placement) -> list["Part"]:
        return read_certificate(self.ask("rate", placement))

    def forward(self, placement: Placement) -> list[Fraction]:
        """The forward ratio of each component, by `lid size`: where it tells that one falls short, the others are seen
        without the relay stations of that one."""
        told: dict[int, Fraction] = {}
        wide = [[PLACES] * len(capacities) for capacities in placement]
        while (sized := self.ask("size", wide)).startswith("short "):
            _, number, _, _, want = sized.split()
            nodes = set(self.parts(wide)[int(number)].nodes)
            told[int(number)] = Fraction(want)
            wide = [
                [PLACES] if self.system.actors[channel.start] in nodes else capacities
                for channel, capacities in zip(self.system.channels, wide)
            ]
        return [told.get(part.number, part.ratio) for part in self.parts(wide)]


def read_design(net: str, root: str | None, stations: str | None) -> Design:
    """The design of the words of a tool; what the program refuses of it is told as the program tells it."""
    text = read_text(net)
    options = (f"--root={root}",) if root is not None else ()
    placed = read_text(stations) if stations is not None else None
    ask(text, "rate", placed, options)
    design = Design(text, options, System(text, root))
    if placed is not None:
        design.system.place(placed)
    return design


@dataclass
class Part:
    """A component of a certificate: its ratio, its slow loop by numbers of edges, and its actors."""

    number: int
    ratio: Fraction
    cycle: list[int]
    nodes: list[int]


def read_certificate(text: str) -> list[Part]:
    parts: list[Part] = []
    for word, *numbers in map(str.split, text.splitlines()[1:]):
        if word == "part":
            parts.append(Part(len(parts), Fraction(0), [], []))
        elif word == "ratio":
            parts[-1].ratio = Fraction(int(numbers[0]), int(numbers[1]))
        elif word == "cycle":
            parts[-1].cycle = list(map(int, numbers))
        elif word == "node":
            parts[-1].nodes.append(int(numbers[0]))
    return parts


def rated(net: str, options: tuple[str, ...], stations: str, program: str) -> list[Part] | Fault:
    """The components of a placement, or what the program says of it; this runs on a worker too."""
    try:
        return read_certificate(ask(net, "rate", stations, options, program=program))
    except Fault as fault:
        return fault


@dataclass
class Step:
    """An edge of a loop: from actor to actor along a station (`forth`), against it (`BACK`), or at one actor (`self`); with
    the channel, its number, and the place of the station."""

    edge: int
    start: int
    end: int
    way: str
    tokens: int
    channel: Channel | None = None
    number: int = 0
    place: int = 0

    @property
    def capacity(self) -> int:
        return self.channel.capacities[self.place] if self.channel else 0


def steps_of(system: System, cycle: list[int]) -> list[Step]:
    """The steps of a loop. Edge 2s runs along station s, edge 2s + 1 back, and after these comes one for each actor."""
    stations = [
        (channel, number, place)
        for number, channel in enumerate(system.channels)
        for place in range(len(channel.capacities))
    ]
    found = []
    for edge in cycle:
        if edge >= 2 * len(stations):
            actor = edge - 2 * len(stations)
            found.append(Step(edge, actor, actor, "self", 1))
            continue
        channel, number, place = stations[edge // 2]
        fills, drains = ends_of(system, channel, place)
        tokens = int(place == 0)
        if edge % 2 == 0:
            found.append(Step(edge, fills, drains, "forth", tokens, channel, number, place))
        else:
            found.append(Step(edge, drains, fills, "BACK", channel.capacities[place] - tokens, channel, number, place))
    return found


def ends_of(system: System, channel: Channel, place: int) -> tuple[int, int]:
    """The actors that fill and drain the station at a place of a channel."""
    fills = system.actors[channel.start] if place == 0 else channel.mover + place - 1
    last = place == len(channel.capacities) - 1
    return fills, system.actors[channel.end] if last else channel.mover + place


def loop_of(system: System, part: Part) -> list[Step]:
    """The slow loop of a part, after its tokens and steps were counted anew."""
    steps = steps_of(system, part.cycle)
    tokens = sum(step.tokens for step in steps)
    closed = all(step.end == after.start for step, after in zip(steps, [*steps[1:], *steps[:1]]))
    if not closed or not steps or Fraction(tokens, len(steps)) != part.ratio:
        what = f"{tokens} tokens in {len(steps)} steps" if closed else "no closed walk"
        refuse(f"the loop of part {part.number} is {what}, and not of the ratio {part.ratio}: please report it with the netlist")
    return steps


def called(system: System, actor: int) -> str:
    """What an actor is called: its node and instance, or which relay station of which channel a mover fills."""
    if actor < len(system.nodes):
        node = system.nodes[actor]
        return node.name if node.instance == "-" else f"{node.name} {node.instance}"
    channel = next(c for c in reversed(system.channels) if c.mover <= actor and len(c.capacities) > 1)
    return f"relay {actor - channel.mover + 1}"


def write(name: str | None, text: str):
    """Writes a file, or the standard output."""
    if name is None:
        sys.stdout.write(text)
        return
    try:
        Path(name).write_text(text, errors="surrogateescape")
    except OSError as fault:
        refuse(f"{name}: {fault.strerror}")


def ratio_text(ratio: Fraction) -> str:
    return f"{ratio.numerator}/{ratio.denominator}"


CHANGES = ("less", "more", "larger")
HEAD = ["step", "from", "to", "channel", "place", "capacity", "way", "tokens", *CHANGES, "what helps"]


def changed(design: Design, step: Step, change: str) -> Placement | None:
    """The placement after a change at the channel of a step, where the change is possible."""
    placement = [list(capacities) for capacities in design.placement]
    capacities = placement[step.number]
    if change == "less" and len(capacities) > 1:
        capacities.pop()
    elif change == "more" and step.way == "BACK" and len(capacities) <= RELAYS:
        capacities.append(2)
    elif change == "larger" and step.way == "BACK" and capacities[step.place] < PLACES:
        capacities[step.place] += 1
    else:
        return None
    return placement


def span(ends: list[int]) -> str:
    return str(ends[0]) if ends[0] == ends[-1] else f"{ends[0]}-{ends[-1]}"


def cure(part: Part, step: Step) -> str:
    if part.ratio == 1:
        return "-"
    if step.way == "self":
        return "nothing: an actor fires once a cycle at most"
    if step.way == "forth":
        return "shorten this wire, or take a relay station away" if len(step.channel.capacities) > 1 else "-"
    if step.capacity == PLACES:
        return "add a relay station here"
    return "enlarge this station, or add a relay station here"


class Loops:
    """The slow loops of a design, and what holds them: the ratios after each change at one of their channels, and those
    with the most room."""

    def __init__(self, design: Design, is_all: bool, has_changes: bool = True):
        self.design, self.system = design, design.system
        every = design.parts(design.placement)
        self.parts = [part for part in every if is_all or part.ratio < 1]
        self.count = len(every)
        self.loops = [loop_of(self.system, part) for part in self.parts]
        if self.parts and has_changes:
            self.forward = design.forward(design.placement)
            self.widest = design.parts([[PLACES] * len(capacities) for capacities in design.placement])
        self.ratios = self.rate_changes() if has_changes else {}

    def rate_changes(self) -> dict[tuple, str]:
        """The ratio of a part after a change, by the part, the channel, the place and the change."""
        wanted = {
            self.key(part, step, change): (part, step, change)
            for part, loop in zip(self.parts, self.loops)
            for step in loop
            if step.channel
            for change in CHANGES
        }
        with ThreadPoolExecutor() as pool:
            return dict(zip(wanted, pool.map(lambda job: self.rate(*job), wanted.values())))

    def key(self, part: Part, step: Step, change: str) -> tuple:
        return part.number, step.channel.name(), step.place if change == "larger" else -1, change

    def rate(self, part: Part, step: Step, change: str) -> str:
        """The ratio of a part after a change, or what the program says of it."""
        placement = changed(self.design, step, change)
        if placement is None:
            return "-"
        try:
            return ratio_text(self.design.parts(placement)[part.number].ratio)
        except Fault as fault:
            return fault.args[0].removeprefix("lid: ")

    def rows(self, part: Part, loop: list[Step]) -> list[list[str]]:
        """A line for each step, as HEAD says."""
        return [self.row(part, [(number, step)]) for number, step in enumerate(loop, 1)]

    def legs(self, part: Part, loop: list[Step]) -> list[list[str]]:
        """The same with one line for steps forth that follow each other along one channel."""
        legs = itertools.groupby(enumerate(loop, 1), lambda step: step[1].channel.name() if step[1].way == "forth" else step[0])
        return [self.row(part, list(leg)) for _, leg in legs]

    def row(self, part: Part, leg: list[tuple[int, Step]]) -> list[str]:
        numbers, steps = zip(*leg)
        first, last = steps[0], steps[-1]
        where = ["-"] * 3
        if first.channel:
            capacities = [step.capacity for step in steps]
            where = [first.channel.name(), span([first.place, last.place]), span([min(capacities), max(capacities)])]
        after = [self.ratios[self.key(part, first, change)] if first.channel else "-" for change in CHANGES]
        ends = [called(self.system, first.start), called(self.system, last.end)]
        return [span([numbers[0], numbers[-1]]), *ends, *where, first.way, str(sum(step.tokens for step in steps)), *after, cure(part, first)]

    def verdict(self, part: Part) -> str:
        """What holds a part: its stations forth, or the room beside them."""
        forward, widest = self.forward[part.number], self.widest[part.number].ratio
        if part.ratio == 1:
            return "Nothing holds it: one row a cycle."
        if part.ratio == forward:
            return "The stations forth hold it: its ratio is the forward ratio, so no larger station helps. Take relay stations away, shorten wires, or give the loop a register more."
        told = f"The room on the ways beside holds it: its forward ratio is {ratio_text(forward)}. "
        if widest == forward:
            return told + "`lid size` gives capacities that reach that; tools/explore --balance adds them one by one."
        return told + f"With {PLACES} places everywhere it is {ratio_text(widest)}, so relay stations are wanted on the short ways: tools/explore --balance adds them."

    def is_by_environment(self, loop: list[Step]) -> bool:
        """Whether a loop goes through the source or the sink."""
        return any(step.end in (0, len(self.system.nodes) - 1) and step.way != "self" for step in loop)
