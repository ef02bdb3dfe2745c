"""The text of an instruction word, as a source has it and as `m36 print` prints it."""

from functools import lru_cache

from .fields import instruction_of, is_on
from .table import TABLE

REGISTERS = ["", "au", "qu", "du", "ic", "al", "ql", "dl"] + [f"x{n}" for n in range(8)]
TALLIES = {0o44: "sd", 0o51: "i", 0o53: "ad", 0o54: "di", 0o56: "id"}


def tag_text(tag):
    """The modifier of a tag without its comma, or None where the tag has none."""
    if tag < 0o20:
        return REGISTERS[tag]
    if tag < 0o40:
        return REGISTERS[tag & 0o17] + "*"
    if tag < 0o60:
        return TALLIES.get(tag)
    return "*" + (REGISTERS[tag & 0o17] or "n")


@lru_cache(maxsize=65536)
def row_of(word):
    """The row of the instruction table, or None."""
    instruction = instruction_of(word)
    return TABLE.get((instruction.code, instruction.bit_27))


def address_text(instruction):
    if instruction.by_pointer:
        return f"pr{instruction.pointer}|{instruction.offset}"
    return str(instruction.address)


@lru_cache(maxsize=65536)
def disassemble(word):
    """The instruction that a word is, or `oct` and its digits."""
    row = row_of(word)
    instruction = instruction_of(word)
    tag = tag_text(instruction.tag)
    if row is None or tag is None or is_on(word, 28):
        return f"oct {word:012o}"
    return f"{row.name} {address_text(instruction)}" + ("," + tag if tag else "")
