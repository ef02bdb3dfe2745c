"""What is wrong with a file as a whole, or with the words of an object: the codes F, T, O and S."""

import os

from m36lib.line_forms import Finding
from m36lib.shown import quoted
from m36lib.texts import read_bytes

PACKED_PAIR, DIGITS = 9, 9
SIZE_LIMIT = 16 * 1024 * 1024


def size_of(name):
    """The size of a file in bytes, in words; an empty text where it can't be had."""
    try:
        return f" has {os.stat(name).st_size:,} bytes"
    except OSError:
        return ""


def packed_word(data, number):
    """Word `number` of packed words, or None where there is none."""
    digits = data.hex()[DIGITS * number : DIGITS * (number + 1)]
    return int(digits, 16) if len(digits) == DIGITS else None


def absent(name, _place):
    """F1."""
    folder = quoted(os.getcwd())
    return Finding(f"{quoted(name)}; expected a file of this name in the folder {folder}")


def too_large(name, _place):
    """F2."""
    return Finding(f"{quoted(name)}{size_of(name)}; expected at most {SIZE_LIMIT:,}")


def no_words(name, place):
    """T3."""
    return Finding(
        f"{quoted(name)} has {place:,} bytes; expected a multiple of {PACKED_PAIR}, or 5 more"
    )


def not_padded(name, place):
    """T4."""
    return Finding(
        f"the last byte of {quoted(name)}, byte {place:,}; expected four zero bits at its end"
    )


def too_many_words(name, _place):
    """F3."""
    return Finding(f"{quoted(name)}{size_of(name)}; expected at most 1,179,648")


def too_few_words(name, place):
    """O1."""
    return Finding(f"{quoted(name)} has {place} words; expected an object, of at least 18 words")


def wrong_word(expected):
    """A finder for a code whose place is a word."""

    def find(name, place):
        word = packed_word(read_bytes(name) or b"", place)
        shown = f" is {word:012o}" if word is not None else ""
        return Finding(f"word {place:o} (octal) of {quoted(name)}{shown}; expected {expected}")

    return find


def no_object(name, _place):
    """O8."""
    return Finding(f"{quoted(name)}; expected the one spelling that OBJECTS.md gives an object")


def input_too_long(_name, _place):
    """S1."""
    return Finding("the standard input; expected at most 1,048,576 bytes, or `quit` before them")


FINDERS = {
    "F1": absent,
    "F2": too_large,
    "F3": too_many_words,
    "T3": no_words,
    "T4": not_padded,
    "O1": too_few_words,
    "O2": wrong_word("the map of an object and the place of the map after it"),
    "O3": wrong_word("a section that ends before the map and has its fixed words"),
    "O4": wrong_word("a word of one section alone"),
    "O5": wrong_word("a count, offset, class or name of the chain of definitions"),
    "O6": wrong_word("a name of 1 to 32 letters, digits, _ and full stops, padded with zeros"),
    "O7": wrong_word("a link, a link count, a type or a section as OBJECTS.md has them"),
    "O8": no_object,
    "S1": input_too_long,
}


def find(code, name, place):
    """What is wrong, by the code and the place of the refusal."""
    return FINDERS[code](name, place)
