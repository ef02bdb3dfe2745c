"""Fits lines to the window of a terminal: lines are cut or wrapped to its width, and panes get as
many lines as its height has room for."""

import re
import textwrap

ESCAPE = re.compile(r"(\x1b\[[0-9;]*m)")
CUT_MARK = ">"
INDENT = "    "
SECOND_COLUMN = re.compile(r" *(?:\S(?:[^ ]| (?! ))* {2,})?")


def cut(line, width):
    """A line of at most this width: a longer one ends with a mark. Colours take no room."""
    if len(ESCAPE.sub("", line)) <= width:
        return line
    room, parts = width - len(CUT_MARK), []
    for part in ESCAPE.split(line):
        if ESCAPE.match(part):
            parts.append(part)
        else:
            parts.append(part[:room])
            room -= len(parts[-1])
    return "".join(parts) + CUT_MARK


def wrapped(line, width, column=None):
    """A line as several, broken between words; those after the first begin at a column, or are
    indented."""
    if len(line) <= width:
        return [line]
    indent = line[: len(line) - len(line.lstrip())]
    after = indent + INDENT if column is None else " " * column
    return textwrap.wrap(line.strip(), width, initial_indent=indent, subsequent_indent=after,
                         break_on_hyphens=False)


def wrapped_row(line, width):
    """A line in several; those after the first begin at its second column, if it has two and there
    is room."""
    column = SECOND_COLUMN.match(line).end()
    return wrapped(line, width, column if column <= width // 2 else None)


def heights(room, panes):
    """How many lines each pane gets of a room. A pane is a pair: the fewest lines with which it is
    shown and the most that it has use for, its heading among them. Each gets the fewest, those that
    come first before the others, as long as there is room; what is left goes to them in the same
    order."""
    given = []
    for least, _ in panes:
        given.append(least if least <= room else 0)
        room -= given[-1]
    for index, (_, most) in enumerate(panes):
        if given[index]:
            more = min(room, most - given[index])
            given[index] += more
            room -= more
    return given
