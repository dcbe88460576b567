#!/usr/bin/env python3
"""A slow reading of the generator: the draws of a design, its rows and its relay stations, as numbers alone.

    tools/dev/gen.py SEED SHELLS [ROWS CHANNELS]

It prints a line for each shell with its kind and the place of its second net, a line with the places of the
nets of the outputs, and then a line for each row and one with the relay stations of the channels. What the
tests of `lid_gen` expect was told by it; it shares no code with the crates.
"""

import sys

from arguments import parser_of


class Draws:
    def __init__(self, seed: int):
        self.state = seed % 65537
        self.states = []

    def draw(self, n: int) -> int:
        self.state = (75 * self.state + 74) % 65537
        self.states.append(self.state)
        return self.state % n


def main():
    parser = parser_of(__doc__)
    for name, count in (("SEED", None), ("SHELLS", None), ("ROWS", "?"), ("CHANNELS", "?")):
        parser.add_argument(name, type=int, nargs=count)
    given = parser.parse_args()
    seed, shells, rows, channels = given.SEED, given.SHELLS, given.ROWS, given.CHANNELS
    draws = Draws(seed)
    places = 4 + 2 * shells
    for shell in range(shells):
        kind = draws.draw(4)
        print(f"shell {shell} kind {kind} place {draws.draw(places)}")
    print("outputs", *(draws.draw(places) for _ in range(4)))
    print("states", *draws.states[:12])
    if rows is not None:
        for _ in range(rows):
            print("row", "".join(str(draws.draw(2)) for _ in range(4)))
        print("relays", *(draws.draw(4) for _ in range(channels or 0)))


if __name__ == "__main__":
    main()
