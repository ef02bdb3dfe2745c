"""The registers of the processor, as a session writes them."""

import re
from dataclasses import dataclass, replace
from functools import lru_cache
from typing import NamedTuple

LETTERS = "zncomt"
POINTER_LINE = re.compile(r"pr[0-7] ([0-7]):([0-7]{5})\|([0-7]{6}) ([0-7]{2})")
PLACE_LINE = re.compile(r"([0-7]) ([0-7]{5})\|([0-7]{6})")


class Pointer(NamedTuple):
    """A pointer register."""

    segment: int
    ring: int
    word: int
    bit: int

    def text(self):
        return f"{self.ring}:{self.segment:05o}|{self.word:06o} {self.bit:02o}"


class Indicators(NamedTuple):
    """The six indicators, in the order of a trace line."""

    zero: bool
    negative: bool
    carry: bool
    overflow: bool
    mask: bool
    tally: bool

    def text(self):
        return "".join(letter if on else "." for letter, on in zip(LETTERS, self))


class Dbr(NamedTuple):
    """The descriptor segment base register."""

    address: int
    bound: int
    unpaged: bool
    stack: int


@dataclass(frozen=True)
class Registers:
    """All registers. `ring`, `segment` and `word` are the place of the next instruction. A session
    does not show the descriptor segment base register `dbr`: the recorder keeps it."""

    a: int
    q: int
    x: tuple
    pr: tuple
    indicators: Indicators
    ring: int
    segment: int
    word: int
    dbr: Dbr

    def but(self, **changes):
        return replace(self, **changes)

    def with_x(self, number, value):
        return replace(self, x=self.x[:number] + (value,) + self.x[number + 1 :])

    def with_pr(self, number, pointer):
        return replace(self, pr=self.pr[:number] + (pointer,) + self.pr[number + 1 :])

    def as_json(self):
        return {
            "a": f"{self.a:012o}",
            "q": f"{self.q:012o}",
            "x": [f"{value:06o}" for value in self.x],
            "pr": [pointer.text() for pointer in self.pr],
            "indicators": self.indicators.text(),
            "ring": self.ring,
            "segment": f"{self.segment:05o}",
            "word": f"{self.word:06o}",
        }


@lru_cache(maxsize=64)
def indicators_of(text):
    return Indicators(*(letter != "." for letter in text))


def place_of(line):
    """Ring, segment and word of a line that `where` writes."""
    return tuple(int(part, 8) for part in PLACE_LINE.fullmatch(line).groups())


@lru_cache(maxsize=4096)
def pointer_in(line):
    """The pointer register of a line of `regs`."""
    ring, segment, word, bit = POINTER_LINE.fullmatch(line).groups()
    return Pointer(int(segment, 8), int(ring, 8), int(word, 8), int(bit, 8))


@lru_cache(maxsize=4096)
def index_registers_in(line):
    return tuple(int(text, 8) for text in line.split(" ")[1:])


def registers_of(lines, place_line, dbr):
    """The registers of the ten lines of `regs` and the line of `where`."""
    _, a, _, q, _, indicators = lines[0].split(" ")
    ring, segment, word = place_of(place_line)
    return Registers(
        a=int(a, 8),
        q=int(q, 8),
        x=index_registers_in(lines[1]),
        pr=tuple(pointer_in(line) for line in lines[2:10]),
        indicators=indicators_of(indicators),
        ring=ring,
        segment=segment,
        word=word,
        dbr=dbr,
    )
