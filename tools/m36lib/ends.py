"""How a call of m36 ended, in words, where its status line names no place in a file."""

from m36lib.audits import broken_conditions
from m36lib.unreadable import unreadable, unwritable
from m36lib.words import status_entry

READ_FAULT, WRITE_FAULT, AUDIT_NO, MACHINE_STOP = 2, 3, 5, 6
# After these the sentence of the status is followed by sentences of their own.
FOLLOWED = (AUDIT_NO, MACHINE_STOP)


def account_of_end(program, words):
    """The account of the end of a run: the instruction, the place, the ring, and the rule that
    refused it, as sentences. It asks the program again by its words; there is none where the
    library has no such account."""
    try:
        from m36lib import account_of_end as account  # a part of the library that may be absent
    except ImportError:
        return []
    return account.end_in_words(program, words)


def causes(program, words, status):
    """What is known beyond the status, as sentences; none where looking for it fails."""
    try:
        if status == MACHINE_STOP:
            return account_of_end(program, words)
        if status == AUDIT_NO:
            return broken_conditions(program, words)
        finders = {READ_FAULT: unreadable, WRITE_FAULT: unwritable}
        found = finders[status](words) if status in finders else None
        return [found] if found else []
    except Exception:  # pylint: disable=broad-except
        return []


def end_in_words(program, words, status):
    """The sentences for an exit status; none where m36 has no such status."""
    entry = status_entry(status)
    if not entry:
        return []
    found = causes(program, words, status)
    if not found:
        return [f"{entry.word}: {entry.sentence}; {entry.advice}"]
    if status in FOLLOWED:
        return [f"{entry.word}: {entry.sentence}", *found]
    return [f"{entry.word}: {entry.sentence}: {found[0]}"]
