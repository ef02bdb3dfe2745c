"""The forms of lines: boot texts, access lists, bind files, bare images and texts of processes.

`malformed(line, forms)` finds what is wrong with one line read by itself: the text at fault, its
column, and the form that was expected. The tables of forms restate those of the documents
BOOT.md, ACCESS.md, BIND.md, IMAGES.md and MANUAL.md, section 13.
"""

import re
from dataclasses import dataclass

from m36lib.shown import quoted


@dataclass(frozen=True)
class Field:
    """A word of a line: its name, its pattern, the words for it, and the range of a number."""

    name: str
    pattern: str
    words: str
    least: int | None = None
    most: int | None = None

    def fits(self, text):
        """Whether a word has this form."""
        if not re.fullmatch(self.pattern, text, re.ASCII):
            return False
        return self.most is None or self.least <= number(text) <= self.most


@dataclass(frozen=True)
class Form:
    """A kind of line: its first word, its fields, and how often the last field may be repeated."""

    word: str
    fields: tuple[Field, ...]
    repeats: int = 1

    def __str__(self):
        names = " ".join(field.name for field in self.fields)
        return f"{self.word} {names}{' ..' if self.repeats > 1 else ''}"


@dataclass(frozen=True)
class Finding:
    """What is wrong: the sentence, and the column where it begins, counted in bytes from 1; 0
    where it has no place in the line."""

    sentence: str
    column: int = 0


def number(digits):
    """The number of decimal digits; one that is too long to matter is cut."""
    return int(digits.lstrip("0")[:20] or "0")


NAME_PATTERN = r"(?!\.)[A-Za-z0-9_.]{1,32}"
NAME_WORDS = "1 to 32 letters, digits, _ and full stops, not beginning with a full stop"
DIRECTORY_WORDS = "1 to 64 letters, digits, _, full stops and >"
RING_WORDS = "one octal digit, 0 to 7"

DIRECTORY = Field("DIR", r"[A-Za-z0-9_.>]{1,64}", DIRECTORY_WORDS)
NAME = Field("NAME", NAME_PATTERN, NAME_WORDS)
FILE = Field("FILE", NAME_PATTERN, NAME_WORDS)
KIND = Field("KIND", "object|gate|data", "object, gate or data")
MODE = Field("MODE", "null|(?=.)r?e?w?p?", "one or more of r e w p in this order, or null")
RIGHTS = Field("MODE", "null|(?=.)r?e?w?", "one or more of r e w in this order, or null")
TERM = Field(
    "TERM",
    r"(\*|[A-Za-z0-9_]{1,32})\.(\*|[A-Za-z0-9_]{1,32})\.(\*|[a-z])",
    "Person.Project.tag: twice 1 to 32 letters, digits and _, and one small letter; each may be *",
)
START = Field(
    "NAME$ENTRY",
    rf"{NAME_PATTERN}\${NAME_PATTERN}",
    f"two names with a $ between them, each {NAME_WORDS}",
)
WORD_PATTERN, WORD_WORDS = "[0-7]{12}", "12 octal digits"


def ring(name):
    """A field for a ring."""
    return Field(name, "[0-7]", RING_WORDS)


def decimal(name, least, most):
    """A field for a decimal number in a range."""
    return Field(name, "[0-9]+", f"a decimal number from {least} to {most}", least, most)


def octal(name, digits):
    """A field for exactly this number of octal digits."""
    return Field(name, f"[0-7]{{{digits}}}", f"{digits} octal digits")


BOOT = (
    Form("frames", (decimal("N", 1, 8192),)),
    Form("work", (DIRECTORY,)),
    Form("library", (DIRECTORY,)),
    Form("segment", (DIRECTORY, NAME, FILE, KIND, MODE, ring("R1"), ring("R2"), ring("R3"))),
    Form("name", (NAME,)),
    Form("start", (ring("RING"), START)),
)
ACCESS = (Form("segment", (DIRECTORY, NAME)), Form("term", (TERM, RIGHTS)))
BIND = (
    Form("version", (Field("2", "2", "the one version to ask for"),)),
    Form("object", (NAME,)),
    Form("retain", (NAME,)),
)
WORDS = Field("W", WORD_PATTERN, WORD_WORDS)
DBR = (Field("E", WORD_PATTERN, WORD_WORDS), Field("O", WORD_PATTERN, WORD_WORDS))
PLACE = (octal("S", 5), Field("R", "[0-7]", RING_WORDS), octal("I", 6))
AT = Form("at", (octal("A", 8), WORDS), 8)
CORE = Form("core", (Field("N", "[0-9]+", "a decimal number from 1 to 16384"),))
IMAGE = (CORE, Form("dbr", DBR), Form("start", PLACE), AT)
PROCESSES = (
    Form("core", (decimal("N", 1, 16384),)),
    Form("process", (*DBR, *PLACE)),
    AT,
    Form(
        "turns",
        (decimal("C", 1, 1_000_000), Field("P", "[0-9]", "the number of a process, one digit")),
        16,
    ),
)


def form_of(line, forms):
    """The form of the kind of line that the first word names; None where there is none."""
    first = line.split(" ", 1)[0]
    return next((form for form in forms if form.word == first), None)


def kinds(forms):
    """The first words of the kinds of lines, as a list in words."""
    return "one of " + ", ".join(form.word for form in forms)


def column_of(words, index):
    """The column of a word in its line, in bytes from 1."""
    before = "".join(word + " " for word in words[:index])
    return len(before.encode("utf-8", "surrogateescape")) + 1


def spacing(line, words):
    """What is wrong with the blanks of a line, which separate its words one by one."""
    if line.endswith("\r"):
        return Finding(
            f"the line {quoted(line)} ends with a carriage return; lines end with a line feed alone"
        )
    if not line:
        return Finding("the line is empty")
    if "" not in words:
        return None
    index = words.index("")
    where = "two blanks in a row in"
    if index == 0:
        where = "a blank before the first word of"
    elif index == len(words) - 1:
        where = "a blank after the last word of"
    column = max(1, column_of(words, index) - (index == len(words) - 1))
    return Finding(f"{where} {quoted(line)}; words are separated by single blanks", column)


def wrong_field(words, form):
    """The first word of a line that does not fit its field, or is missing, or is too many."""
    fields = list(form.fields) + [form.fields[-1]] * (form.repeats - 1)
    for index, field in enumerate(fields[: len(words) - 1], 1):
        if not field.fits(words[index]):
            return Finding(
                f"{quoted(words[index])} does not fit {field.name}, which is {field.words}; "
                f"expected {form}",
                column_of(words, index),
            )
    if len(words) - 1 < len(form.fields):
        field = form.fields[len(words) - 1]
        return Finding(
            f"{field.name} is missing after {quoted(' '.join(words))}; expected {form}, where "
            f"{field.name} is {field.words}"
        )
    if len(words) - 1 > len(fields):
        index = len(fields) + 1
        return Finding(
            f"{quoted(words[index])} is one word too many; expected {form}",
            column_of(words, index),
        )
    return None


def malformed(line, forms, has_line_feed=True):
    """What is wrong with a line read by itself, or None."""
    words = line.split(" ")
    found = spacing(line, words)
    if found:
        form = form_of(line.lstrip(" "), forms)
        ending = f"; expected {form or kinds(forms)}"
        return Finding(found.sentence + ending, found.column)
    form = form_of(line, forms)
    if form is None:
        return Finding(f"{quoted(words[0])} begins no line here; expected {kinds(forms)}", 1)
    found = wrong_field(words, form)
    if found:
        return found
    if not has_line_feed:
        return Finding(f"the line {quoted(line)} lacks the line feed at its end; expected {form}")
    return None
