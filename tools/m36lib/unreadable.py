"""Which file a ReadFault or a WriteFault may be about: m36 does not name it.

The files that a command reads and writes follow from its words (docs/COMMANDS.md). Of these the
ones that are there and can't be read, or replaced, are named; there may be none. A file that is
written is replaced, so it takes the right to write the folder, and not the file.
"""

import os
import stat

from m36lib.commands import FILE, option_named
from m36lib.shown import quoted
from m36lib.texts import read_text


# The commands that write files.
WRITERS = ("alm", "bind", "make")


def operand_of(words):
    """The operand of a command, or None."""
    rest = list(words[1:])
    while rest:
        word = rest.pop(0)
        option = option_named(word)
        if option and option.value:
            rest[:1] = []
        elif FILE.fits(word):
            return word
    return None


def segment_files(text):
    """The files of the segment lines of a boot text."""
    lines = [line.split(" ") for line in text.lines] if text else []
    return [words[3] for words in lines if words[0] == "segment" and len(words) == 9]


def files_read(words):
    """The files that a command reads, in order."""
    operand = operand_of(words)
    if words[0] == "alm":
        return [f"{operand}.alm"]
    if words[0] == "bind":
        bind = read_text(f"{operand}.bind")
        lines = [line.split(" ") for line in bind.lines] if bind else []
        return [f"{operand}.bind", *(line[1] for line in lines if line[:1] == ["object"])]
    if operand and words[0] != "access":
        return [operand]
    return ["boot", "acl", *segment_files(read_text("boot"))]


def files_written(words):
    """The files that a command writes, except the many of `make`."""
    return [operand_of(words)] if words[0] in WRITERS and words[0] != "make" else []


def fault_of(name):
    """Why a file can't be read, or None where it is absent, or can be."""
    try:
        mode = os.stat(name).st_mode
    except (OSError, ValueError):
        return None
    if stat.S_ISDIR(mode):
        return f"{quoted(name)} is a folder"
    return None if os.access(name, os.R_OK) else f"there is no right to read {quoted(name)}"


def unreadable(words):
    """The first file that can't be read, in words, or None."""
    return next(filter(None, map(fault_of, files_read(words))), None)


def unwritable(words):
    """Why the files of a command can't be written, in words, or None."""
    for name in files_written(words):
        if os.path.isdir(name) and not os.path.islink(name):
            return f"{quoted(name)} is a folder"
    if words[0] in WRITERS and not os.access(".", os.W_OK | os.X_OK):
        return "there is no right to write in this folder"
    return None
