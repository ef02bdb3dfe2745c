"""What m36 says, in words: one sentence for each code, status, fault, access violation and end.

This is the one table of these sentences; its rows are in `m36lib.code_words` and
`m36lib.run_words`. `m36lib.refusals` prints them after a status line, `tools/explain` looks them
up, and docs/CODES.md is made from them (`m36lib.codes_page`).
"""

import os
import pathlib
import re
import shutil

from m36lib.code_words import CODE_GROUPS, INNER_GROUP
from m36lib.commands import status_numbered
from m36lib.run_words import END_GROUP, FAULT_GROUP, STATUS_GROUP, VIOLATION_GROUP

GROUPS = (STATUS_GROUP, END_GROUP, FAULT_GROUP, VIOLATION_GROUP, *CODE_GROUPS, INNER_GROUP)

# The name of tools/explain once it is installed, as the sentences have it.
EXPLAIN = "m36-explain"

# The words that an end line has before its fault or stop, and whole lines that have a code.
LEADING = re.compile(r"(?:end |stop |fault )+")
WITH_CODE = re.compile(r"BadFile \S+ ([A-Z]\d) .*|audit no (?:\d )?([AJ]\d)\b.*|link \d.* (L\d)")


def with_explain(text):
    """A text in which tools/explain is named as it can be started from here."""
    if EXPLAIN not in text or shutil.which(EXPLAIN):
        return text
    path = pathlib.Path(__file__).resolve().parents[1] / "explain"
    return text.replace(EXPLAIN, os.path.relpath(path))


def code_entry(code):
    """The entry of a code of a refusal, a link or an audit; None where there is none."""
    return next((e for g in (*CODE_GROUPS, INNER_GROUP) for e in g if e.word == code), None)


def status_entry(number):
    """The entry of an exit status; None where m36 has no such status."""
    status = status_numbered(number)
    return next((e for e in STATUS_GROUP if status and e.word == status.name), None)


def same(one, other):
    """Whether two words are the same but for capital letters."""
    return one.casefold() == other.casefold()


def names(entry):
    """The words by which an entry is found: its own, and its name."""
    return {entry.word, entry.word.removeprefix("stop "), entry.name} - {""}


def entries_of(text):
    """The entries of a word, as `E2`, `20.3`, `MachineStop`, `DIS`, `6`, `illegal procedure`, or
    of a line of m36. A number may be a status and a fault."""
    text = " ".join(text.split()).removeprefix("m36: ")
    line = WITH_CODE.fullmatch(text)
    text = next(filter(None, line.groups())) if line else text
    short = re.sub(r" \d+$", "", text) if text.startswith("end ") else text
    bare = LEADING.sub("", short).removeprefix("link ") or short
    wanted = (text, bare)
    found = [e for g in GROUPS for e in g if any(same(n, w) for n in names(e) for w in wanted)]
    if text.isdigit() and status_entry(int(text)):
        found.insert(0, status_entry(int(text)))
    return found
