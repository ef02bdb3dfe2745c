"""What the console service of a booted folder does (docs/MANUAL.md, section 15): MME in ring 0 has
it write as many characters as A says, from the word on that PR2 names, read in the ring of PR2."""

from .account import Account, Place
from .fields import HALF_WORD
from .memory import NoAccess, NotKnown
from .references import References

MASTER_MODE_ENTRY = 2
MOST_CHARACTERS = 256
IN_WORD = 4


class Console:
    """What is written, as a string with a character for each byte, or None and why it is refused.
    Both are None where it can't be known."""

    def __init__(self, written, refusal):
        self.written = written
        self.refusal = refusal


def is_called(account, registers, memory):
    """The step calls for the console service."""
    outcome = account.outcome
    is_entry = outcome.kind == "fault" and outcome.number == MASTER_MODE_ENTRY
    return is_entry and registers.ring == 0 and memory.serves


def console(registers, memory, names):
    """The console service for these registers."""
    count = registers.a
    if count > MOST_CHARACTERS:
        why = f"The console is asked for {count} characters, and writes at most {MOST_CHARACTERS}."
        return Console(None, why)
    account = Account(at=None)
    references = References(registers, memory, account, names)
    pointer = registers.pr[2]
    characters = []
    try:
        for number in range((count + IN_WORD - 1) // IN_WORD):
            word = (pointer.word + number) % HALF_WORD
            place = Place(pointer.ring, pointer.segment, word)
            _, (content,) = references.ask("read", place)
            characters += [content >> shift & 0o777 for shift in (27, 18, 9, 0)]
    except NoAccess:
        asked = account.references[-1]
        why = f"The console reads in the ring of PR2. {asked.question} {asked.answer}"
        return Console(None, why)
    except NotKnown:
        return Console(None, None)
    return Console("".join(map(written_character, characters[:count])), None)


def written_character(character):
    return chr(character) if character < 0o200 else "?"
