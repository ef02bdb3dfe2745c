"""The lines that a session writes of steps, read for the debugger.

A Piece has the steps of one answer. A long run has many steps of which few matter to a debugger, so
`taken` reads those alone that are asked for. Places are texts such as `00100|000011`, as the
program prints them."""

from typing import NamedTuple

CALLS = frozenset(("713",))
SUBROUTINES = frozenset(f"{code:o}" for code in (*range(0o270, 0o274), *range(0o670, 0o674)))
INDEXED_SUBROUTINES = frozenset(f"{code:o}" for code in range(0o700, 0o710))
RETURNS = frozenset(("610",))
ABSA, LDBR = "212", "232"
PUSHES = CALLS | SUBROUTINES | INDEXED_SUBROUTINES
CODES = PUSHES | RETURNS | {ABSA, LDBR}
LINK_FAULT = "fault 24"
# The fields of a trace line, counted from the blank after the number of the step.
RING, PLACE, AFTER_PLACE, CODE, AFTER_CODE = 1, 3, 15, 22, 25


class Taken(NamedTuple):
    """A step that was taken: its trace line, the fields of it, the place of the next instruction
    and the lines of the linker and the console after it. `code` are the three octal digits of the
    operation code."""

    number: int
    ring: str
    place: str
    word: str
    final: str
    outcome: str
    line: str
    next_ring: str
    next_place: str
    services: tuple

    @property
    def code(self):
        return self.word[6:9]

    def has_snapped(self):
        """The step lacked a link, and the linker has answered: it is taken again next."""
        return (self.outcome == LINK_FAULT and self.next_place == self.place
                and any(line.startswith("link ") for line in self.services))


class Piece:
    """Steps one after another, from the number `first` on: their trace lines, and the line of
    `where` after them. The numbers of all have as many digits, see `piece_size`."""

    def __init__(self, first, lines, where):
        self.first = first
        self.where = where
        self.blank = len(str(first))
        self.services = {}
        self.lines = lines
        if any(line[0] > "9" for line in lines):
            self.lines = list(self.without_services(lines))

    def without_services(self, lines):
        """The trace lines; the lines of the linker and the console are kept by the step."""
        index = -1
        for line in lines:
            if line[0] <= "9":
                index += 1
                yield line
            elif not line.startswith("end "):
                self.services[index] = (*self.services.get(index, ()), line)

    def __len__(self):
        return len(self.lines)

    def taken(self, index):
        """A step, by its index from 0."""
        line = self.lines[index]
        number, ring, place, word, final, _, _, _, outcome = line.split(" ", 8)
        next_ring, next_place = self.next_of(index)
        services = self.services.get(index, ())
        return Taken(int(number), ring, place, word, final, outcome, line, next_ring, next_place,
                     services)

    def next_of(self, index):
        """Ring and place of the instruction after a step."""
        if index + 1 == len(self.lines):
            ring, _, place = self.where.partition(" ")
            return ring, place
        line = self.lines[index + 1]
        return line[self.blank + RING], line[self.blank + PLACE : self.blank + AFTER_PLACE]

    def with_codes(self):
        """The indexes of steps that may call or return, or make going back unsure."""
        start, stop = self.blank + CODE, self.blank + AFTER_CODE
        return [index for index, line in enumerate(self.lines) if line[start:stop] in CODES]

    def at_places(self, places):
        """The indexes of steps at these places."""
        if not places:
            return []
        start, stop = self.blank + PLACE, self.blank + AFTER_PLACE
        return [index for index, line in enumerate(self.lines) if line[start:stop] in places]

    def before_places(self, places):
        """The indexes of steps after which the run is at one of these places."""
        found = [index - 1 for index in self.at_places(places) if index]
        if self.lines and self.where.partition(" ")[2] in places:
            found.append(len(self.lines) - 1)
        return found

    def with_other_ring(self):
        """The indexes of steps that change the ring."""
        at = self.blank + RING
        rings = "".join([line[at] for line in self.lines]) + self.where[0]
        if rings.count(rings[0]) == len(rings):
            return []
        return [index for index in range(len(self.lines)) if rings[index] != rings[index + 1]]


def piece_size(position, count):
    """How many of the next steps after a position have numbers with as many digits as the first."""
    return min(count, 10 ** len(str(position + 1)) - 1 - position)


def numbers_of(place):
    """Segment and word of a place `SSSSS|WWWWWW`."""
    return int(place[:5], 8), int(place[6:], 8)


def text_of(segment, word):
    return f"{segment:05o}|{word:06o}"


def after_place(place):
    """The place of the word after a place."""
    segment, word = numbers_of(place)
    return text_of(segment, (word + 1) % (1 << 18))
