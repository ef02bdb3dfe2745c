"""What is wrong with the form of a line of a source: the codes E1 to E4, in words."""

import re

from m36lib.alm_lines import (
    ADDRESS_WORDS,
    LONG_SYMBOL,
    MODIFIER,
    MODIFIER_WORDS,
    NUMBER,
    OCTAL,
    OPERANDS,
    OWN,
    POINTER,
    SECTION,
    SIGNED,
    SYMBOL,
    SYMBOL_WORDS,
    Piece,
    address,
    terms,
    text_end,
)
from m36lib.line_forms import Finding
from m36lib.shown import quoted
from m36lib.table import TABLE

OPERATIONS = {*OPERANDS, *(row.name for row in TABLE.values())}
TERM_WORDS = "a term is a decimal number, a symbol, or *"


def takes(name):
    """What an operation takes, in words."""
    return f"expected after {name}: {OPERANDS.get(name, ADDRESS_WORDS)}"


def no_symbol(piece, what, whole):
    """What is wrong with a symbol that is a part of this whole, or None."""
    if SYMBOL.fullmatch(piece.text):
        return None
    if not piece.text:
        why = f"the {what} is missing in {whole}; it is"
    elif LONG_SYMBOL.fullmatch(piece.text):
        why = f"the {what} {piece} has {len(piece.text)} characters; it is"
    else:
        why = f"{piece} is no {what}, which is"
    return Finding(f"{why} {SYMBOL_WORDS}", piece.column)


def no_term(piece, whole):
    """What is wrong with a term of an expression in this whole, or None."""
    text = piece.text
    if text == "*" or NUMBER.fullmatch(text) or SYMBOL.fullmatch(text):
        return None
    if not text:
        why = f"a term is missing in {whole}"
    elif re.search(r"[ \t]", text):
        why = f"{piece} has a blank in it"
    elif text.isdigit():
        why = f"{piece} has a leading zero"
    elif LONG_SYMBOL.fullmatch(text):
        why = f"the symbol {piece} has {len(text)} characters, more than 32"
    else:
        why = f"{piece} is no term"
    return Finding(f"{why}; {TERM_WORDS}", piece.column)


def no_expression(expression, whole):
    """What is wrong with an expression that is a part of this whole, or None."""
    found = (no_term(piece, whole) for _minus, piece in terms(expression))
    return next(filter(None, found), None)


def no_address(operand):
    """What is wrong with the operand of an instruction, or None."""
    parts = address(operand)
    if parts.pointer and not POINTER.fullmatch(parts.pointer.text):
        return Finding(
            f"{parts.pointer} before the | is no pointer register, which is pr0 to pr7, or ap ab "
            "bp bb lp lb sp sb",
            parts.pointer.column,
        )
    if parts.segment:
        found = no_external(parts, operand)
    else:
        found = no_expression(parts.expression, operand)
    if found:
        return found
    if parts.modifier and not MODIFIER.fullmatch(parts.modifier.text):
        return no_modifier(parts.modifier, operand)
    return None


def no_modifier(modifier, operand):
    """A text after the comma that is no modifier, or none at all."""
    why = f"{modifier} after the comma of {operand} is no modifier, which is"
    if not modifier.text:
        why = f"the modifier is missing after the comma of {operand}; it is"
    return Finding(f"{why} {MODIFIER_WORDS}", modifier.column)


def no_external(parts, operand):
    """What is wrong with a segment, an entry and what follows them, or None."""
    if not OWN.fullmatch(parts.segment.text):
        found = no_symbol(parts.segment, "segment before the $", operand)
        if found:
            return Finding(found.sentence + ", or *text, *link, *static", found.column)
    found = parts.entry.text and no_symbol(parts.entry, "entry after the $", operand)
    if found or not parts.expression.text:
        return found or None
    if parts.expression.text[0] not in "+-":
        return Finding(
            f"{parts.expression} follows the entry; only + or - and an expression may follow it",
            parts.expression.column,
        )
    return no_expression(parts.expression.after(1), operand)


def no_member(members, pattern, what, whole):
    """The first member of a list that does not have its form, or None."""
    for member in members:
        if pattern.fullmatch(member.text):
            continue
        shown = f"{member} is no {what}"
        if not member.text:
            shown = f"the {what} is missing in {whole}"
        elif member.text.isdigit() and pattern is not OCTAL:
            shown = f"{member} has a leading zero"
        return Finding(shown, member.column)
    return None


def no_names(operand):
    """What is wrong with the names of entry or segdef, or None."""
    found = (no_symbol(member, "name", operand) for member in operand.split(","))
    return next(filter(None, found), None)


def no_pair(operand, first, second):
    """What is wrong with two members, each by its reader, or None."""
    members = operand.split(",")
    if len(members) != 2:
        count = f"{len(members)} part{'s' if len(members) > 1 else ''}"
        return Finding(f"{operand} has {count}, not 2", operand.column)
    return first(members[0], operand) or second(members[1], operand)


def no_name(member, operand):
    """What is wrong with the symbol that equ or bss defines, or None."""
    return no_symbol(member, "symbol", operand)


def no_text(operand):
    """What is wrong with the text of aci, or None."""
    end = text_end(operand)
    if end < 0:
        return Finding(
            f"the text {operand} is not closed: its delimiter {quoted(operand.text[0])} does not "
            "come a second time",
            operand.column,
        )
    rest = operand.after(end + 1)
    return Finding(f"{Piece(rest.text.strip(), rest.at)} follows the text", rest.column)


def no_count(member, operand):
    """What is wrong with the count of bss, or None."""
    return no_member([member], NUMBER, "number", operand)


def not_numbers(pattern, what):
    """A reader of the numbers of dec or oct."""
    return lambda operand: no_member(operand.split(","), pattern, what, operand)


READERS = {
    "entry": no_names,
    "segdef": no_names,
    "equ": lambda operand: no_pair(operand, no_name, no_expression),
    "use": lambda operand: no_member([operand], SECTION, "section", operand),
    "dec": not_numbers(SIGNED, "decimal number"),
    "oct": not_numbers(OCTAL, "octal number"),
    "aci": no_text,
    "zero": lambda operand: no_pair(operand, no_expression, no_expression),
    "bss": lambda operand: no_pair(operand, no_name, no_count),
    "even": lambda operand: Finding(f"{operand} is too much", operand.column),
    "entrybound": lambda operand: Finding(f"{operand} is too much", operand.column),
}


def form_refused(line, raw, column):
    """E2: a label or an operand."""
    for label in line.labels:
        found = no_symbol(label, "label", quoted(raw.encode("latin-1")))
        if found and label.column == column:
            return found
    if not line.operation:
        return None
    name = line.name()
    if not line.operand:
        return Finding(f"{line.operation} has no operand; {takes(name)}", column)
    found = READERS.get(name, no_address)(line.operand)
    if not found:
        return Finding(f"the operand {line.operand} of {name}; {takes(name)}", column)
    return Finding(f"{found.sentence}; {takes(name)}", found.column)


def character_refused(line, raw, column):
    """E1."""
    character = raw[column - 1 :].encode("latin-1").decode("utf-8", "replace")[:1]
    shown = f"{quoted(character)} ({ord(raw[column - 1]):03o} octal)"
    if line.name() == "aci" and line.operand and column >= line.operand.column:
        return Finding(
            f"{shown} in the text of aci; expected printing characters, octal 040 to 176", column
        )
    return Finding(
        f'{shown}; expected letters, digits, blanks, tabs, and _ . : + - * | $ , or a comment '
        'after "',
        column,
    )


def operation_refused(line, _raw, column):
    """E3."""
    sentence = (
        f"{line.operation}; expected an instruction of MANUAL.md, section 9, in small letters, or "
        "one of " + " ".join(OPERANDS)
    )
    if line.operand and re.split("[ \t]", line.operand.text)[0] in OPERATIONS:
        sentence += "; a label ends with a colon"
    return Finding(sentence, column)


RANGES = {
    "dec": "from -34359738368 to 68719476735",
    "oct": "from 0 to 777777777777 octal",
}


def number_refused(line, raw, column):
    """E4."""
    number = re.match(r"[+-]?[0-9]*", raw[column - 1 :], re.ASCII)[0]
    limits = RANGES.get(line.name(), "from 0 to 262143")
    return Finding(f"{quoted(number)} after {line.name()}; expected a number {limits}", column)
