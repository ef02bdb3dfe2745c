"""Where the words of a source go, and what its symbols mean, as far as an explanation needs it.

`Layout(lines)` walks over the lines once: it gives each line its section and its place, and each
symbol its value and the section in which it is a place. docs/ALM.md has the rules.
"""

from dataclasses import dataclass, field

from m36lib.alm_lines import NUMBER, cut, terms, text_end

LINK_HEAD = 8
SECTIONS = ("text", "link", "static")


@dataclass
class Sum:
    """The value of an expression, and how often it counts the places of each section. `missing` is
    the first symbol that is not defined."""

    value: int = 0
    places: dict = field(default_factory=lambda: dict.fromkeys(SECTIONS, 0))
    missing: str | None = None

    def add(self, other, is_minus):
        """Adds or subtracts another sum."""
        sign = -1 if is_minus else 1
        self.value += sign * other.value
        for section in SECTIONS:
            self.places[section] += sign * other.places[section]
        self.missing = self.missing or other.missing

    def is_number(self):
        """Whether it is a number, and no place of a section."""
        return not any(self.places.values())

    def is_place(self):
        """Whether it is one place of one section."""
        return sorted(self.places.values()) == [0, 0, 1]


@dataclass(frozen=True)
class Spot:
    """A line with the section that it is in, and its place there."""

    line: object
    section: str
    place: int

    def here(self):
        """The sum of `*` in this line."""
        total = Sum(self.place + (LINK_HEAD if self.section == "link" else 0))
        total.places[self.section] = 1
        return total


class Layout:
    """The lines of a source with their places, and its symbols with the lines that define them."""

    def __init__(self, raw_lines):
        self.spots = []
        self.symbols = {}
        self.defined = {}
        self.named = {}
        self.counts = dict.fromkeys(SECTIONS, 0)
        self.section = "text"
        for number, raw in enumerate(raw_lines, 1):
            line = cut(raw)
            self.take(number, line)
            if line.name() == "end":
                break

    def take(self, number, line):
        """Takes one line."""
        spot = Spot(line, self.section, self.counts[self.section])
        self.spots.append(spot)
        for label in line.labels:
            self.define(label.text, spot.here(), number)
        name, operand = line.name(), line.operand
        if not operand:
            self.counts[self.section] += self.size(spot, name, None)
            return
        members = operand.split(",")
        if name == "equ" and len(members) == 2:
            self.define(members[0].text, self.value(members[1], spot), number)
        elif name == "bss" and len(members) == 2:
            self.define(members[0].text, spot.here(), number)
        elif name in ("entry", "segdef"):
            for member in members:
                self.named.setdefault(member.text, number)
        elif name == "use" and operand.text in SECTIONS:
            self.section = operand.text
        self.counts[self.section] += self.size(spot, name, operand)

    def define(self, symbol, total, number):
        """Defines a symbol, unless it is defined already."""
        self.symbols.setdefault(symbol, total)
        self.defined.setdefault(symbol, number)

    @staticmethod
    def size(spot, name, operand):
        """How many words a line has."""
        if name in ("", "entry", "segdef", "equ", "use", "entrybound", "end"):
            return 0
        if name == "even":
            return spot.place % 2
        if name in ("dec", "oct") and operand:
            return len(operand.split(","))
        if name == "aci" and operand:
            return (max(text_end(operand), 1) + 2) // 4
        if name == "bss" and operand:
            count = operand.split(",")[-1].text
            return int(count) if NUMBER.fullmatch(count) and len(count) < 10 else 0
        return 1

    def value(self, expression, spot):
        """The sum of an expression in a line."""
        total = Sum()
        for is_minus, term in terms(expression):
            if term.text == "*":
                total.add(spot.here(), is_minus)
            elif NUMBER.fullmatch(term.text):
                total.add(Sum(int(term.text)), is_minus)
            else:
                total.add(self.symbols.get(term.text, Sum(missing=term.text)), is_minus)
        return total
