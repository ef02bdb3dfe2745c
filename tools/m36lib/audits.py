"""The conditions that an audit found broken, in words: the program is asked to audit again."""

import re
import subprocess

from m36lib.shown import quoted
from m36lib.unreadable import operand_of
from m36lib.user_rights import user_of
from m36lib.words import code_entry

SECONDS = 20
MOST = 8
LINE = re.compile(r"audit no (?:([0-9]) )?([AJ][0-9])(?: ([0-7]+))?")


def audit_words(words):
    """The words that audit what these words audited; None where that would write files."""
    command, operand, user = words[0], operand_of(words), user_of(words)
    if command in ("bare", "procs") or command == "audit" and operand:
        return ["procs" if command == "procs" else "audit", operand]
    if command in ("audit", "run", "trace"):
        return ["audit", *([f"--user={user}"] if user else [])]
    return None


def sentence_of(process, code, place):
    """The sentence for one line of an audit."""
    entry = code_entry(code)
    whose = f"process {process}, " if process else ""
    what = "core word" if len(place) > 5 else "segment"
    at = f": {whose}{what} {quoted(place)}" if place else ""
    return f"{code}: {entry.sentence}{at}; {entry.advice}"


def broken_conditions(program, words):
    """A sentence for each condition that the audit found broken."""
    again = audit_words(words)
    if not again:
        return []
    done = subprocess.run(
        [program, *again],
        stdin=subprocess.DEVNULL,
        capture_output=True,
        timeout=SECONDS,
        check=False,
    )
    lines = done.stdout.decode("ascii", "replace").splitlines()
    found = [match for match in map(LINE.fullmatch, lines) if match and code_entry(match[2])]
    return [sentence_of(match[1], match[2], match[3] or "") for match in found[:MOST]]
