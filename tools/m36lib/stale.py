"""Objects that are not what their sources assemble to, said before a folder is booted."""

import os
import stat
import time

from m36lib.folder import source_of
from m36lib.shown import quoted
from m36lib.texts import read_text
from m36lib.unreadable import operand_of, segment_files

MOST_NAMED = 4
MOST_SECONDS = 1.0


def changed_at(name):
    """When a plain file was changed last, or None where there is no such file."""
    try:
        status = os.stat(name)
    except (OSError, ValueError):
        return None
    return status.st_mtime_ns if stat.S_ISREG(status.st_mode) else None


def is_stale(program, name, made, source):
    """Whether an object is not what its source assembles to. Without a program the times decide."""
    if program:
        return bool(source_of(program, ".", name).problem)
    return source > made


def stale_objects(program, words):
    """The objects of the boot text that are not what their sources assemble to, in order. The words
    are those of a command that boots the folder, or of `debug`, which does where it has no operand.
    Sources are assembled for a second; of the other objects those are named whose sources were
    changed after them."""
    if operand_of(words):
        return []
    found, began = [], time.monotonic()
    for name in dict.fromkeys(segment_files(read_text("boot"))):
        source, made = changed_at(f"{name}.alm"), changed_at(name)
        if not (source and made) or changed_at(f"{name}.bind"):
            continue
        in_time = time.monotonic() - began < MOST_SECONDS
        if is_stale(program if in_time else None, name, made, source):
            found.append(name)
    return found


def stale_in_words(program, words):
    """A sentence that names the objects that are not of their sources; None where there are none."""
    names = stale_objects(program, words)
    if not names:
        return None
    listed = ", ".join(quoted(name) for name in names[:MOST_NAMED])
    if len(names) > MOST_NAMED:
        listed += f" and {len(names) - MOST_NAMED} more"
    return (
        f"the source was changed after it was assembled to {listed}, so what runs is not the "
        f"source; `m36 alm {names[0]}` assembles it again"
    )
