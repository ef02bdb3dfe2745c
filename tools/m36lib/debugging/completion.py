"""What can follow on a line that a user has begun: commands, places and registers."""

from . import command_table
from .conditions import INDICATORS
from .looking import SUBJECTS

REGISTERS = [f"x{number}" for number in range(8)] + [f"pr{number}" for number in range(8)]
REGISTERS += ["a", "q", "ind"]
PARTS = ("segment", "ring", "word", "bit")
NAMES = [*INDICATORS, "ring", "segment", "word", "ic", "step", "a", "q",
         *(f"x{number}" for number in range(8)), *(f"pr{number}." for number in range(8))]
OF_CONDITIONS = {"break", "tbreak"}
OF_PLACES = {"break", "tbreak", "until", "list", "disassemble", "x", "print", "watch", "who",
             "display"}
OF_REGISTERS = {"print", "watch", "who", "display"}
OF_VALUES = {"print", "display"}
OF_NUMBERS = {"delete", "enable", "disable", "condition"}


def choices(session, line, word):
    """The words that begin as this one does and may be the last of the line."""
    before = line[: len(line) - len(word)].split()
    if not before:
        found = [name for each in command_table.COMMANDS
                 for name in (each.name, *each.others) if len(name) > 2 or name == word]
    else:
        found = arguments(session, before, word)
    return sorted({each for each in found if each.startswith(word)})


def arguments(session, before, word):
    """What may follow the words before, of which the first is the name of a command."""
    try:
        command = command_table.find(before[0].partition("/")[0]).name
    except command_table.Unknown:
        return []
    if is_in_condition(command, before):
        return values(session, word)
    found = values(session, word) if command in OF_VALUES else []
    if command in OF_PLACES:
        found += places(session, word)
    if command in OF_REGISTERS:
        found += REGISTERS
    if command in OF_NUMBERS:
        found += [str(number) for number in (*session.breaks, *session.watches)]
    if command == "info":
        found += SUBJECTS.split(", ")
    if command == "help":
        found += [each.name for each in command_table.COMMANDS] + ["places", "expressions"]
    return found


def is_in_condition(command, before):
    """The words before are a command with the beginning of a condition."""
    return command in OF_CONDITIONS and "if" in before[1:3] or (
        command == "condition" and len(before) > 1)


def values(session, word):
    """Registers and their parts, and places in brackets; what is before them in the word stays."""
    name = word.lstrip("!($")
    before = word[: len(word) - len(name)]
    register, point, _ = name.partition(".")
    if point:
        found = [f"{register}.{part}" for part in PARTS]
    elif name.startswith("["):
        found = [f"[{each}" for each in places(session, name[1:])]
    else:
        found = NAMES
    return [before + each for each in found]


def places(session, word):
    """Segments, and the entries and labels of the one that the word names."""
    numbers = session.world.numbers
    name, mark, _ = word.partition("$")
    if mark and name in numbers:
        return [f"{name}${label}" for label in labels(session, numbers[name])]
    here = labels(session, session.registers.segment)
    return [f"{each}$" for each in numbers if not each[-2:-1] == "_"] + [
        f"{each}|" for each in numbers] + here


def labels(session, segment):
    """The entries and the labels of a segment."""
    names = session.world.names
    entries = [entry for _, entry in names.entries(segment)] if hasattr(names, "entries") else []
    return [*entries, *session.world.labels(segment)]
