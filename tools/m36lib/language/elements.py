"""What is at a place of a source: a label, an operation, or a part of an operand."""

from typing import NamedTuple

from ..alm_layout import Layout
from ..alm_lines import NUMBER, OPERANDS, OWN, SYMBOL, Piece, address, cut, terms

NAMING = ("entry", "segdef")
NUMBERS = {"dec": "decimal", "oct": "octal"}


class Element(NamedTuple):
    """A part of a line: its kind, its piece, and for a part of a link the piece of the segment and
    that of the entry. The kinds are label, operation, modifier, pointer, link, symbol, number,
    decimal, octal, here and section."""

    kind: str
    piece: Piece
    segment: Piece | None = None
    entry: Piece | None = None


def holds(piece, column):
    """Whether a column, counted from 0, is in a piece or right after it."""
    return piece is not None and bool(piece.text) and piece.at <= column <= piece.at + len(
        piece.text)


def of_expression(expression):
    """The elements of an expression."""
    for _, term in terms(expression):
        if term.text == "*":
            yield Element("here", term)
        elif NUMBER.fullmatch(term.text):
            yield Element("number", term)
        elif SYMBOL.fullmatch(term.text):
            yield Element("symbol", term)


def is_segment(text):
    """Whether a text names a segment, or an own section."""
    return bool(SYMBOL.fullmatch(text) or OWN.fullmatch(text))


def of_address(operand):
    """The elements of the operand of an instruction."""
    parts = address(operand)
    if parts.segment and is_segment(parts.segment.text):
        length = len(parts.segment.text) + 1 + len(parts.entry.text)
        whole = Piece(operand.text[:length], operand.at)
        yield Element("link", whole, parts.segment, parts.entry)
        yield from of_expression(parts.expression.after(1))
    elif not parts.segment:
        if parts.pointer:
            yield Element("pointer", parts.pointer)
        yield from of_expression(parts.expression)
    if parts.modifier:
        yield Element("modifier", parts.modifier)


def of_operand(name, operand):
    """The elements of an operand."""
    if name not in OPERANDS:
        yield from of_address(operand)
    elif name in NAMING:
        for piece in operand.split(","):
            if SYMBOL.fullmatch(piece.text):
                yield Element("symbol", piece)
    elif name in NUMBERS:
        yield from (Element(NUMBERS[name], piece) for piece in operand.split(","))
    elif name in ("equ", "bss", "zero"):
        for piece in operand.split(","):
            yield from of_expression(piece)
    elif name == "use":
        yield Element("section", operand)


def elements_of(line):
    """The elements of a line, from left to right."""
    for label in line.labels:
        if SYMBOL.fullmatch(label.text):
            yield Element("label", label)
    if line.operation:
        yield Element("operation", line.operation)
    if line.operand:
        yield from of_operand(line.name(), line.operand)


def element_at(raw, column):
    """The element at a column of a line, counted from 0; None where there is none."""
    return next((it for it in elements_of(cut(raw)) if holds(it.piece, column)), None)


def definition_in(raw, symbol):
    """The piece of a line that defines a symbol, or None."""
    line = cut(raw)
    for label in line.labels:
        if label.text == symbol:
            return label
    if line.name() in ("equ", "bss") and line.operand:
        first = line.operand.split(",")[0]
        return first if first.text == symbol else None
    return None


def layout_of(text):
    """The symbols of a source, also of one that is being written."""
    return Layout(text.lines())
