#!/usr/bin/env python3
"""Reads a value change dump as docs/WAVES.md says, slowly and without the crates.

    tools/dev/waves.py < FILE            the trace, as `lid unwave` prints it, or the refusal
    tools/dev/waves.py --cuts < FILE     for each number of first words: the refusal of a text of these alone

It shares no code with lid. Where it says `Word LINE`, no text of the form begins with the words up to and with the
first one on LINE that it refuses.
"""

import re
import sys

from arguments import parser_of

NOTES = (b"$date", b"$version", b"$comment")


class Refused(Exception):
    pass


def identifier(number: int) -> bytes:
    digits = bytes([33 + number % 94])
    return digits if number < 94 else digits + identifier(number // 94)


class Dump:
    def __init__(self, text: bytes):
        self.words = [
            (line, word) for line, row in enumerate(text.split(b"\n"), 1) for word in re.split(rb"[ \t\r]+", row) if word
        ]
        self.at = 0

    def peek(self) -> bytes:
        if self.at == len(self.words):
            raise Refused(self.words[-1][0] if self.words else 0)
        return self.words[self.at][1]

    def refuse(self):
        raise Refused(self.words[self.at][0])

    def take(self, holds) -> bytes:
        word = self.peek()
        if not holds(word):
            self.refuse()
        self.at += 1
        return word

    def exactly(self, text: bytes):
        for want in text.split():
            self.take(lambda word: word == want)

    def upto_end(self):
        while self.take(lambda word: True) != b"$end":
            pass

    def notes(self):
        while self.peek() in NOTES:
            self.take(lambda word: True)
            self.upto_end()

    def sections(self) -> list[str]:
        """The kinds of the variables, by number."""
        kinds = []
        self.notes()
        self.exactly(b"$timescale")
        self.upto_end()
        self.notes()
        self.exactly(b"$scope module lid $end")
        while True:
            self.notes()
            if len(kinds) % 3 == 0 and self.peek() == b"$upscope":
                break
            if len(kinds) == 3 * 65536:
                self.refuse()
            kind = ("valid", "stop", "token")[len(kinds) % 3]
            width = 31 if kind == "token" else 1
            self.exactly(b"$var wire %d" % width)
            name = identifier(len(kinds))
            self.take(lambda word: word == name)
            self.exactly(b"s%d_%s $end" % (len(kinds) // 3, kind.encode()))
            kinds.append(kind)
        self.exactly(b"$upscope $end")
        self.notes()
        self.exactly(b"$enddefinitions $end")
        self.notes()
        return kinds

    def body(self, kinds: list[str]):
        """The times, and what was set: time, variable, value."""
        number = {identifier(n): n for n in range(len(kinds))}
        self.exactly(b"#0")
        times, settings = [0], []
        while self.at < len(self.words):
            last = times[-1]
            word = self.peek()
            if word[:1] == b"#":
                if not re.fullmatch(rb"0|[1-9][0-9]*", word[1:]) or not last < int(word[1:]) < 2**32:
                    self.refuse()
                times.append(int(word[1:]))
                self.at += 1
            elif last == 2**32 - 1:
                self.refuse()
            elif word[:1] in (b"0", b"1"):
                n = number.get(word[1:])
                if n is None or kinds[n] == "token":
                    self.refuse()
                settings.append((last, n, int(word[:1])))
                self.at += 1
            else:
                if not kinds or not re.fullmatch(rb"b[01]{1,31}", word):
                    self.refuse()
                self.at += 1
                name = self.peek()
                if name not in number or kinds[number[name]] != "token":
                    self.refuse()
                settings.append((last, number[name], int(word[1:], 2)))
                self.at += 1
        if self.words[-1][1][:1] != b"#" or (settings and settings[-1][0] == times[-1]):
            raise Refused(self.words[-1][0])
        return times, settings


def shown(text: bytes) -> str:
    if len(text) > 67108864:
        return f"Limit FileBytes {len(text)}"
    dump = Dump(text)
    try:
        kinds = dump.sections()
        times, settings = dump.body(kinds)
    except Refused as refused:
        return f"Word {refused.args[0]}"
    stations, cycles = len(kinds) // 3, times[-1]
    if max(stations, 1) * cycles > 1048576:
        return f"Limit TraceCells {max(stations, 1) * cycles}"
    lines = [f"trace {stations} {cycles}"]
    for cycle in range(cycles):
        value = [next((v for at, m, v in reversed(settings) if m == n and at <= cycle), 0) for n in range(len(kinds))]
        cells = [str(value[3 * s + 2]) + "!" * value[3 * s + 1] if value[3 * s] else "." for s in range(stations)]
        lines.append(" ".join(cells) or "-")
    return "\n".join(lines)


def main():
    parser = parser_of(__doc__)
    parser.add_argument("--cuts", action="store_true", help="the refusal of each number of first words")
    cuts = parser.parse_args().cuts
    text = sys.stdin.buffer.read()
    if not cuts:
        print(shown(text))
        return
    ends = [match.end() for match in re.finditer(rb"[^ \t\r\n]+", text)]
    for count, end in enumerate([0, *ends]):
        print(count, shown(text[:end]).split("\n")[0])


if __name__ == "__main__":
    main()
