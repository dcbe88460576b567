"""What the tools for designers share: a netlist as its system of nodes, channels and stations (docs/SYSTEM.md,
docs/PLACEMENT.md), with the instance names that tools/from_verilog writes.

The channels are those that `lid check` prints; what is read here adds the names of their nets, and is refused where it
does not agree. The program is `./lid`, or what the environment's LID names.
"""

import os
import re
import subprocess
import sys
from dataclasses import dataclass, field
from pathlib import Path

LID = os.environ.get("LID") or str(Path(__file__).resolve().parent.parent / "lid")
TOOL = Path(sys.argv[0]).name


def shown(text: str) -> str:
    """The text, with escapes for what would not stand on one line of a terminal."""
    return "".join(c if c.isprintable() else c.encode("unicode_escape", "surrogatepass").decode() for c in text)


def warn(text: str):
    print(f"{TOOL}: {shown(text)}", file=sys.stderr)


def refuse(text: str):
    warn(text)
    sys.exit(1)


def read_text(name: str) -> str:
    try:
        return Path(name).read_text(errors="surrogateescape")
    except OSError as fault:
        refuse(f"{name}: {fault.strerror}")


def lid(command: str, net: str, *options: str) -> str:
    """What the program prints for a netlist that is handed to it; its refusal is ours."""
    words = [LID, command, "/dev/stdin", *options]
    ran = subprocess.run(words, input=net.encode(errors="surrogateescape"), capture_output=True, check=False)
    if ran.returncode:
        sys.stderr.write(ran.stderr.decode(errors="backslashreplace"))
        sys.exit(ran.returncode)
    return ran.stdout.decode(errors="surrogateescape")


def logical_lines(text: str):
    """The number and the words of each logical line (docs/BLIF.md)."""
    joined, first = [], 0
    for number, line in enumerate(text.split("\n"), 1):
        words = line.partition("#")[0].rstrip(" \t\r")
        first = first or number
        joined += words.removesuffix("\\").split()
        if not words.endswith("\\"):
            if joined:
                yield first, joined
            joined, first = [], 0
    if joined:
        yield first, joined


@dataclass
class Instance:
    model: str
    line: int
    binds: dict[str, str]


@dataclass
class Model:
    """A model; of its covers the buffers alone, each output with its input."""

    name: str
    inputs: list[str] = field(default_factory=list)
    outputs: list[str] = field(default_factory=list)
    clocks: set[str] = field(default_factory=set)
    buffers: dict[str, str] = field(default_factory=dict)
    instances: list[Instance] = field(default_factory=list)


def read_models(text: str) -> list[Model]:
    """The models of a text that `lid` accepts."""
    models, cover = [], []
    for line, (word, *further) in logical_lines(text):
        if word == ".model":
            models.append(Model(further[0]))
        elif word == ".inputs":
            models[-1].inputs += further
        elif word == ".outputs":
            models[-1].outputs += further
        elif word == ".clock":
            models[-1].clocks |= set(further)
        elif word == ".latch" and len(further) > 3 and further[3] != "NIL":
            models[-1].clocks.add(further[3])
        elif word == ".subckt":
            binds = dict(bind.split("=", 1) for bind in further[1:])
            models[-1].instances.append(Instance(further[0], line, binds))
        elif not word.startswith(".") and len(cover) == 2:
            models[-1].buffers[cover[1]] = cover[0]
        if word.startswith("."):
            cover = further if word == ".names" else []
    return models


def add_clocks(models: dict[str, Model]):
    """A net that is bound to a clock name of an instance is one of its own model."""
    found = True
    while found:
        found = False
        for model in models.values():
            for instance in model.instances:
                clocks = {instance.binds[name] for name in models[instance.model].clocks if name in instance.binds}
                found |= not clocks <= model.clocks
                model.clocks |= clocks


def buses(nets: list[str]) -> list[str]:
    """The nets in order, with bits of one bus that follow each other as one: `a[3:0]`."""
    found = []
    for net in nets:
        match = re.fullmatch(r"(.*)\[(\d+)\]", net)
        name, bit = (match[1], int(match[2])) if match else (net, None)
        if found and bit is not None and found[-1][0] == name and found[-1][2] == bit - 1:
            found[-1][2] = bit
        else:
            found.append([name, bit, bit])
    return [name if low is None else f"{name}[{low}]" if low == high else f"{name}[{high}:{low}]" for name, low, high in found]


@dataclass
class Node:
    """The source, a shell or the sink, and the nets of its ports."""

    name: str
    instance: str
    model: str
    line: int
    ports: list[str]


@dataclass
class Channel:
    """A channel with the nets of its ports, the outputs of the root that it leads to, and its stations and movers."""

    start: str
    end: str
    piece: int
    nets: list[str]
    pins: list[str] = field(default_factory=list)
    capacities: list[int] = field(default_factory=lambda: [2])
    station: int = 0
    mover: int = 0

    def name(self) -> str:
        return f"{self.start} {self.end} {self.piece}"


class System:
    """The nodes and channels of a netlist."""

    def __init__(self, text: str, root: str | None):
        self.report = lid("check", text, *([f"--root={root}"] if root is not None else [])).splitlines()
        models = read_models(text)
        self.models = {model.name: model for model in models}
        self.root = self.models[self.report[0].removeprefix("root ")]
        self.reach_clocks()
        names = instance_names(text, len(self.root.instances) or 1) if self.root is models[0] else []
        self.nodes = self.find_nodes(names)
        self.channels = self.find_channels()
        self.actors = {node.name: number for number, node in enumerate(self.nodes)}
        self.number()
        told = [f"channel {channel.name()} ports {len(channel.nets)}" for channel in self.channels]
        if told != [line for line in self.report if line.startswith("channel ")]:
            refuse("the channels that are read here are not those of `lid check`: please report it with the netlist")

    def reach_clocks(self):
        reached, left = {}, [self.root.name]
        while left:
            model = self.models[left.pop()]
            if model.name not in reached:
                reached[model.name] = model
                left += [instance.model for instance in model.instances]
        add_clocks(reached)

    def data_inputs(self, model: Model) -> list[str]:
        return [name for name in model.inputs if name not in model.clocks]

    def find_nodes(self, names: list[str]) -> list[Node]:
        root = self.root
        names = names or ["-"] * (len(root.instances) or 1)
        nodes = [Node("in", "-", "-", 0, self.data_inputs(root))]
        if not root.instances:
            nodes.append(Node("u0", names[0], root.name, 0, root.outputs))
        for place, (instance, name) in enumerate(zip(root.instances, names)):
            ports = [instance.binds.get(port, f"({port})") for port in self.models[instance.model].outputs]
            nodes.append(Node(f"u{place}", name, instance.model, instance.line, ports))
        return [*nodes, Node("out", "-", "-", 0, [])]

    def sources(self) -> dict[str, tuple[int, int]]:
        """Of each net of the root that a port drives: the node and the place of the port."""
        found = {net: (0, place) for place, net in enumerate(self.nodes[0].ports)}
        for number, instance in enumerate(self.root.instances, 1):
            for place, port in enumerate(self.models[instance.model].outputs):
                if port in instance.binds:
                    found[instance.binds[port]] = number, place
        return found

    def read_nets(self) -> list[list[str]]:
        """The nets that each shell reads, and then the sink."""
        if not self.root.instances:
            return [self.nodes[0].ports, self.root.outputs]
        inputs = [[i.binds[name] for name in self.data_inputs(self.models[i.model])] for i in self.root.instances]
        return [*inputs, self.root.outputs]

    def find_channels(self) -> list[Channel]:
        sources, read = self.sources(), {}
        if not self.root.instances:
            sources |= {net: (1, place) for place, net in enumerate(self.root.outputs)}
        for end, nets in enumerate(self.read_nets(), 1):
            for name in nets:
                net = name
                while net not in sources and net in self.root.buffers:
                    net = self.root.buffers[net]
                if net in sources:
                    start, place = sources[net]
                    read.setdefault((start, end), {}).setdefault(place, []).append(name)
        return [channel for (start, end), ports in sorted(read.items()) for channel in self.pieces(start, end, ports)]

    def pieces(self, start: int, end: int, ports: dict[int, list[str]]):
        """The channels of the ports that one node reads of another, each with the nets by which it reads them."""
        places = sorted(ports)
        for first in range(0, len(places), 31):
            piece = places[first : first + 31]
            nets = [self.nodes[start].ports[place] for place in piece]
            pins = [name for place in piece for name in ports[place]] if end == len(self.nodes) - 1 else []
            yield Channel(self.nodes[start].name, self.nodes[end].name, first // 31, nets, pins)

    def number(self):
        """Numbers stations by channel and place, and movers after the nodes."""
        station, mover = 0, len(self.nodes)
        for channel in self.channels:
            channel.station, channel.mover = station, mover
            station += len(channel.capacities)
            mover += len(channel.capacities) - 1

    def place(self, text: str):
        """Takes the relay stations of a text of stations (docs/PLACEMENT.md)."""
        lines = list(logical_lines(text))
        if not lines or lines[0][1] not in (["lid-stations", "1"], ["lid-stations", "2"]):
            refuse("this is no text of stations: its first line is not `lid-stations 1` or `lid-stations 2`")
        version, named = lines[0][1][1], {channel.name(): channel for channel in self.channels}
        for line, words in lines[1:]:
            channel, numbers = named.get(" ".join(words[:3])), words[3:]
            if channel is None:
                refuse(f"line {line} of the stations: no channel {' '.join(words[:3])}")
            if not numbers or not all(word.isdecimal() for word in numbers) or int(numbers[0]) > 64:
                refuse(f"line {line} of the stations: FROM TO PIECE COUNT, with COUNT from 0 to 64")
            count = int(numbers[0])
            if len(numbers) != (1 if version == "1" else count + 2):
                refuse(f"line {line} of the stations: not as many numbers as version {version} has")
            channel.capacities = list(map(int, numbers[1:])) or [2] * (count + 1)
        self.number()

    def node(self, name: str) -> Node:
        return self.nodes[0] if name == "in" else self.nodes[-1] if name == "out" else self.nodes[int(name[1:]) + 1]

    def instance(self, name: str) -> str:
        """What a node is called: its instance, or itself where it has none."""
        instance = self.node(name).instance
        return name if instance == "-" else instance


def instance_names(text: str, count: int) -> list[str]:
    """The names of `# u0 = counter` above the first model, where there is one for each shell."""
    head = text.partition(".model")[0]
    found = dict(re.findall(r"^# (u\d+) = (.*?)\s*$", head, re.M))
    wanted = [f"u{number}" for number in range(count)]
    return [found[name] for name in wanted] if list(found) == wanted else []
