"""The parts of a line of a source: labels, operation, operand, and the forms of operands.

A line is a string with one character for each byte (latin-1), so columns count bytes as those of
m36 do. Nothing here decides whether a line is refused: m36 has done that. docs/ALM.md has the
rules.
"""

import re
from dataclasses import dataclass

from m36lib.shown import quoted

SYMBOL = re.compile(r"[A-Za-z_][A-Za-z0-9_.]{0,31}", re.ASCII)
LONG_SYMBOL = re.compile(r"[A-Za-z_][A-Za-z0-9_.]*", re.ASCII)
NUMBER = re.compile(r"0|[1-9][0-9]*", re.ASCII)
SIGNED = re.compile(r"[+-]?(?:0|[1-9][0-9]*)", re.ASCII)
OCTAL = re.compile(r"[0-7]+", re.ASCII)
REGISTER = r"(?:n|au|qu|du|ic|al|ql|dl|x?[0-7])"
MODIFIER = re.compile(rf"\*|sd|i|ad|di|id|\*{REGISTER}|{REGISTER}\*?")
POINTER = re.compile(r"pr[0-7]|ap|ab|bp|bb|lp|lb|sp|sb")
SECTION = re.compile(r"text|link|static")
OWN = re.compile(r"\*(?:text|link|static)")

SYMBOL_WORDS = "a letter or _, then letters, digits, _ and full stops, 32 characters at most"
MODIFIER_WORDS = (
    "n au qu du ic al ql dl or x0 to x7, one of these with * before or after it, * alone, or "
    "i id di ad sd"
)
ADDRESS_WORDS = (
    "an address EXPR, PR|EXPR, SEGMENT$ENTRY or SEGMENT$, perhaps followed by a comma and a "
    "modifier"
)

# What each operation takes that is no instruction.
OPERANDS = {
    "entry": "names of labels of the text, with commas between them",
    "segdef": "names of labels, with commas between them",
    "equ": "a symbol, a comma and an expression",
    "use": "text, link or static",
    "dec": "decimal numbers, with commas between them; each may have a sign",
    "oct": "octal numbers, with commas between them",
    "aci": "a text between two equal characters, the delimiters",
    "zero": "two expressions with a comma between them",
    "bss": "a symbol, a comma and a number",
    "even": "no operand",
    "entrybound": "no operand",
    "end": "no operand",
}


@dataclass(frozen=True)
class Piece:
    """A part of a line, and its place in it, counted in bytes from 0."""

    text: str
    at: int

    @property
    def column(self):
        """The column, as m36 counts it."""
        return self.at + 1

    def after(self, count):
        """The piece without its first characters."""
        return Piece(self.text[count:], self.at + count)

    def split(self, separators):
        """The pieces between these characters."""
        pieces, start = [], 0
        for index, character in enumerate(self.text + separators[0]):
            if character in separators:
                pieces.append(Piece(self.text[start:index], self.at + start))
                start = index + 1
        return pieces

    def __str__(self):
        return quoted(self.text.encode("latin-1"))


@dataclass(frozen=True)
class SourceLine:
    """The parts of a line; the operation and the operand may be missing."""

    labels: tuple[Piece, ...]
    operation: Piece | None
    operand: Piece | None

    def name(self):
        """The operation, or an empty text."""
        return self.operation.text if self.operation else ""


def cut(line):
    """The parts of a line."""
    labels, start = [], 0
    stop = len(line)
    for at, character in enumerate(line):
        if character == ":":
            labels.append(Piece(line[start:at], start))
            start = at + 1
        elif character in " \t" and start == at:
            start = at + 1
        elif character in ' \t"':
            stop = at
            break
    operation = Piece(line[start:stop], start) if start < stop else None
    operand = operand_in(line, stop, line[start:stop] == "aci") if operation else None
    return SourceLine(tuple(labels), operation, operand)


def operand_in(line, stop, is_text):
    """The operand after an operation: up to the comment, except that a text may have quotes."""
    rest = line[stop:]
    if is_text:
        rest = "" if rest.startswith('"') else rest
    else:
        rest = rest.split('"', 1)[0].rstrip(" \t")
    text = rest.lstrip(" \t")
    return Piece(text, stop + len(rest) - len(text)) if text else None


def terms(expression):
    """The terms of an expression, each with whether it is subtracted. A minus may come first."""
    minus = expression.text.startswith("-")
    whole = expression.after(1) if minus else expression
    signs = [minus] + [character == "-" for character in whole.text if character in "+-"]
    return list(zip(signs, whole.split("+-"), strict=True))


@dataclass(frozen=True)
class Address:
    """The operand of an instruction: a pointer register or a segment and perhaps an entry, the
    expression, and the modifier after the comma."""

    pointer: Piece | None
    segment: Piece | None
    entry: Piece | None
    expression: Piece
    modifier: Piece | None


def address(operand):
    """The parts of the operand of an instruction."""
    body, comma, rest = operand.text.partition(",")
    modifier = Piece(rest, operand.at + len(body) + 1) if comma else None
    before, bar, after = body.partition("|")
    if bar:
        expression = Piece(after, operand.at + len(before) + 1)
        return Address(Piece(before, operand.at), None, None, expression, modifier)
    before, dollar, after = body.partition("$")
    if not dollar:
        return Address(None, None, None, Piece(body, operand.at), modifier)
    length = len(re.match(r"[A-Za-z0-9_.]*", after, re.ASCII)[0])
    entry = Piece(after[:length], operand.at + len(before) + 1)
    tail = Piece(after[length:], entry.at + length)
    return Address(None, Piece(before, operand.at), entry, tail, modifier)


def text_end(operand):
    """The place of the closing delimiter of the operand of `aci`, or -1."""
    return operand.text.find(operand.text[0], 1)
