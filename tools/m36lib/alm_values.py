"""What is wrong with the symbols and values of a source: the codes E5 to E8, in words."""

from m36lib.alm_layout import SECTIONS, Layout
from m36lib.alm_lines import LONG_SYMBOL, OPERANDS, Piece, address
from m36lib.line_forms import Finding
from m36lib.shown import quoted

HALF = (-131072, 262143)
OFFSET = (-16384, 16383)
VALUE_WORDS = "a number, or one label with numbers added or subtracted"


def symbol_at(raw, column):
    """The symbol that begins at a column."""
    found = LONG_SYMBOL.match(raw, column - 1)
    return Piece(found[0] if found else raw[column - 1 : column], column - 1)


def repeated(layout, line, raw, column):
    """E5."""
    symbol = symbol_at(raw, column)
    names = line.name() in ("entry", "segdef") and line.operand and column >= line.operand.column
    first = (layout.named if names else layout.defined).get(symbol.text)
    what = "named by entry or segdef" if names else "defined"
    where = f", in line {first}" if first else ""
    return Finding(f"{symbol} is {what}{where}; expected each symbol once", column)


def undefined(layout, line, raw, column):
    """E6."""
    symbol = symbol_at(raw, column)
    if line.name() == "equ" and symbol.text in layout.symbols:
        return Finding(
            f"{symbol} is defined further down; the expression of equ has symbols that are defined "
            "above it",
            column,
        )
    return Finding(
        f"{symbol}; expected a label of this source, or a symbol of equ or bss; one of another "
        "segment is written SEGMENT$NAME",
        column,
    )


def expressions(line):
    """The expressions of a line: each with its range, and whether it may be a place."""
    name, operand = line.name(), line.operand
    if not operand:
        return []
    if name == "equ":
        return [(operand.split(",")[-1], HALF, False)]
    if name == "zero":
        return [(member, HALF, True) for member in operand.split(",")]
    if name in OPERANDS:
        return []
    parts = address(operand)
    if parts.segment:
        is_minus = parts.expression.text.startswith("-")
        return [(parts.expression if is_minus else parts.expression.after(1), HALF, False)]
    return [(parts.expression, OFFSET if parts.pointer else HALF, True)]


def value_refused(layout, spot, column):
    """A value that is out of its range, or that no relocation can say; or None."""
    for expression, (least, most), may_move in expressions(spot.line):
        total = layout.value(expression, spot)
        if not expression.column <= column <= expression.column + 1:
            continue
        if not least <= total.value <= most:
            value = "" if expression.text == str(total.value) else f", which is {total.value}"
            return Finding(f"{expression}{value}; expected one from {least} to {most}", column)
        if not may_move and not total.is_number():
            return Finding(
                f"{expression} is a place of a section; expected a number, which does not move",
                column,
            )
        if not total.is_number() and not total.is_place():
            return Finding(
                f"{expression} is neither a number nor one place; expected {VALUE_WORDS}", column
            )
    return None


def name_refused(layout, line, raw, column):
    """A name of entry or segdef that is no label, or None."""
    name = line.name()
    if name not in ("entry", "segdef") or not line.operand or column < line.operand.column:
        return None
    symbol = symbol_at(raw, column)
    expected = "a label of the text section" if name == "entry" else "a label"
    total = layout.symbols.get(symbol.text)
    section = next((s for s in SECTIONS if total and total.places[s] == 1), None)
    what = f"a label of the section {section}" if section else "a number"
    return Finding(f"{symbol} is {what}; {name} takes {expected}", column)


def segment_refused(line, column):
    """A link that can't be made, or None."""
    if line.name() in OPERANDS or not line.operand:
        return None
    parts = address(line.operand)
    if not parts.segment or parts.segment.column != column:
        return None
    if parts.segment.text == "*static":
        return Finding(
            f"{line.operand} names static words, and the source has none; expected a line "
            '"use static" in it',
            column,
        )
    return Finding(
        f"the link of {line.operand} is out of the reach of pr4|; expected it within the first "
        "16384 words of the linkage section",
        column,
    )


def section_refused(spot, column):
    """An operation in a section where it may not be, or None."""
    line = spot.line
    if not line.operation or line.operation.column != column:
        return None
    if line.name() == "use":
        return Finding(
            f"{quoted('use ' + (line.operand.text if line.operand else ''))} begins a second kind "
            "of static words; expected link or static, and only one of them",
            column,
        )
    return Finding(
        f"{line.operation} is in the section {spot.section}; instructions go into the section text",
        column,
    )


def misfit(layout, spot, raw, column):
    """E7."""
    return (
        section_refused(spot, column)
        or name_refused(layout, spot.line, raw, column)
        or segment_refused(spot.line, column)
        or value_refused(layout, spot, column)
    )


def too_long(layout, spot):
    """E8."""
    line = spot.line
    shown = " ".join(piece.text for piece in (line.operation, line.operand) if piece)
    return Finding(
        f"with {quoted(shown)} in the section {spot.section}; expected at most 258,048 words in a "
        "section and 262,144 in the object"
    )


def find(code, raw_lines, number, column):
    """What is wrong, by the code and the place of the refusal."""
    layout = Layout(raw_lines)
    spot = layout.spots[number - 1]
    raw = raw_lines[number - 1]
    if code == "E5":
        return repeated(layout, spot.line, raw, column)
    if code == "E6":
        return undefined(layout, spot.line, raw, column)
    return misfit(layout, spot, raw, column) if code == "E7" else too_long(layout, spot)
