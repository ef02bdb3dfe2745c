"""The words of a command, read."""

import re

from . import conditions, show
from .command_table import find
from .places import NEXT, WORDS

MOST_EXAMINED = 4_096
MOST_NUMBERS = 1_000
FORMED = ("x", "print", "display")


class Refused(Exception):
    """A command can't be done; says why."""


def split_name(line):
    """The command of a line, and what follows its name. `x/8o` has its form after the name, which
    is kept before what follows."""
    if ";" in line:
        raise Refused("a line has one command, so it has no `;`; `-e` may be given more than once")
    first, *rest = line.split(None, 1)
    name, slash, form = first.partition("/")
    command = find(name)
    if slash and command.name not in FORMED:
        raise Refused(f"{command.name} has no form /{form}")
    return command, f"{slash}{form} {''.join(rest)}".strip()


def split_form(text):
    """The form that `split_name` has kept, or None, and the rest."""
    if not text.startswith("/"):
        return None, text
    form, *rest = text.split(None, 1)
    return form, "".join(rest)


def split_condition(text):
    """A place, and the condition after `if`."""
    words = text.split()
    if "if" in words[:2]:
        place, _, condition = f" {text} ".partition(" if ")
        if not condition.strip():
            raise Refused("a condition is missing after `if`")
        return place.strip(), condition.strip()
    if len(words) > 1:
        raise Refused(f"`if` is expected before a condition, and not {words[1]}")
    return text, None


def is_place(text):
    """The text names a place, and is no expression."""
    return text in NEXT or text.startswith("*") or not set(text) & set("[]()&=<>! ") and (
        bool(set(text) & set("|$:")) or re.fullmatch(r"[A-Za-z_]\w*", text) is not None
        and conditions.register_value(text) is None)


def count_of(text, default, least=1):
    if not text and default is not None:
        return default
    if not text.isdecimal() or int(text) < least or len(text) > 10:
        raise Refused(f"{text or 'nothing'} is no number of {least} or more")
    return int(text)


def examined_count(text):
    count = count_of(text, 1)
    if count > MOST_EXAMINED:
        raise Refused(f"at most {MOST_EXAMINED} at once")
    return count


def within_segment(word, count):
    """How many of some words from a word on a segment can have, and a line if it is fewer."""
    if word >= WORDS:
        raise Refused(f"no segment has a word after {WORDS - 1:o}")
    if word + count <= WORDS:
        return count, []
    return WORDS - word, [f"no segment has a word after {WORDS - 1:o}"]


def numbers_in(text):
    """Numbers, separated by blanks or commas; `2-4` are 2, 3 and 4."""
    found = []
    for word in text.replace(",", " ").split():
        first, dash, last = word.partition("-")
        first = count_of(first, None)
        last = count_of(last, None) if dash else first
        if not 0 <= last - first < MOST_NUMBERS:
            raise Refused(f"{word} is no range of numbers")
        found += range(first, last + 1)
    return found


def no_more(text):
    if text:
        raise Refused(f"{text} is not expected")


def console_lines(text):
    """What the console has written, as lines; characters that can't be shown as `?`."""
    lines = text.split("\n")
    if not lines[-1]:
        lines.pop()
    return [show.plain(line) for line in lines]
