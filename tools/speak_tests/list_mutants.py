"""Mutators of bind files, access lists and command words; as those of sources."""

from speak_tests.boot_mutants import lines_of, numbers_of, with_word
from speak_tests.source_mutants import picked, replaced

BIND_FORMS = {"object": "object NAME", "retain": "retain NAME"}
ACCESS_FORMS = {"segment": "segment DIR NAME", "term": "term TERM MODE"}

# ---- bind files


def misspelt_bind(text, chance):
    """Puts a letter after the first word of a line."""
    number = picked(numbers_of(text, *BIND_FORMS), chance)
    wrong = lines_of(text)[number][0] + "s"
    return with_word(text, number, 0, wrong), "B1", wrong, "one of version, object, retain"


def bad_bind_name(text, chance):
    """Writes a name that no file may have."""
    number = picked(numbers_of(text, *BIND_FORMS), chance)
    wrong = picked([".go", "a-b", "a/b", "x$y"], chance)
    mutant = with_word(text, number, 1, wrong)
    return mutant, "B1", wrong, BIND_FORMS[lines_of(text)[number][0]], "letters, digits, _"


def late_object(text, _chance):
    """Puts an object after the retained names."""
    return text + "object caller\n", "B1", "object caller", "retain NAME"


def repeated_object(text, chance):
    """Names an object twice."""
    number = picked(numbers_of(text, "object"), chance)
    wrong = lines_of(text)[number][1]
    mutant = replaced(text, number, f"object {wrong}\nobject {wrong}")
    return mutant, "B3", wrong, "each object name once"


def unknown_retained(text, chance):
    """Retains a name that no component defines."""
    wrong = f"nosuch{chance.randrange(100)}"
    return text + f"retain {wrong}\n", "B5", wrong, "entry or segdef"


def open_bind_line(text, _chance):
    """Leaves the last line feed out."""
    return text[:-1], "B1", text.splitlines()[-1], "line feed", "retain NAME"


# ---- access lists


def misspelt_access(text, chance):
    """Puts a letter after the first word of a line."""
    number = picked(numbers_of(text, *ACCESS_FORMS), chance)
    wrong = lines_of(text)[number][0] + "s"
    return with_word(text, number, 0, wrong), "C1", wrong, "one of segment, term"


def wrong_rights(text, chance):
    """Writes a mode that a term can't have."""
    number = picked(numbers_of(text, "term"), chance)
    wrong = picked(["er", "rep", "x", "no", "rwe"], chance)
    return with_word(text, number, 2, wrong), "C1", wrong, "r e w in this order", "term TERM MODE"


def wrong_term(text, chance):
    """Writes a term that is none."""
    number = picked(numbers_of(text, "term"), chance)
    wrong = picked(["Jones", "Jones.Demo", "Jones.Demo.A", "*.*", "J-s.*.*"], chance)
    return with_word(text, number, 1, wrong), "C1", wrong, "Person.Project.tag"


def repeated_term(text, chance):
    """Gives a term twice."""
    number = picked(numbers_of(text, "term"), chance)
    words = lines_of(text)[number]
    mutant = replaced(text, number, " ".join(words) + f"\nterm {words[1]} r")
    return mutant, "C2", words[1], "each term once"


def unknown_segment(text, chance):
    """Gives a list to a segment that the boot text does not have."""
    number = picked(numbers_of(text, "segment"), chance)
    words = lines_of(text)[number]
    wrong = f"{words[1]} nosuch{chance.randrange(100)}"
    return replaced(text, number, f"segment {wrong}"), "C3", wrong, "segment line of boot"


def missing_access_word(text, chance):
    """Leaves the last word of a line out."""
    number = picked(numbers_of(text, *ACCESS_FORMS), chance)
    words = lines_of(text)[number]
    wrong = " ".join(words[:-1])
    return replaced(text, number, wrong), "C1", wrong, ACCESS_FORMS[words[0]]


# ---- command words, separated by line feeds

OPERANDS = {"access": "Person.Project.tag"}


def commands_of(text):
    """The calls of m36 in a file `commands` of the examples, each as words between line feeds."""
    calls = [line.split() for line in text.splitlines() if "/m36 " in line and "<" not in line]
    return ["\n".join(words[1:]) for words in calls]


def misspelt_command(text, _chance):
    """Puts a letter after a command."""
    first, *others = text.split("\n")
    return "\n".join([first + "x", *others]), "Usage", first + "x", "one of bare, audit, run"


def unknown_option(text, chance):
    """Puts an option that there is not."""
    wrong = picked(["--verbose", "-v", "--step", "--Unaudited"], chance)
    return f"{text}\n{wrong}", "Usage", wrong, f"{text.split()[0]} takes"


def foreign_option(text, _chance):
    """Puts an option that this command does not take."""
    command = text.split()[0]
    if command in ("run", "trace", "bare"):
        return None
    return f"{text}\n--steps\n5", "Usage", "--steps", f"{command} takes"


def further_operand(text, _chance):
    """Puts an operand too many."""
    words = text.split()
    if len(words) < 2 and words[0] in ("audit", "debug"):
        return None
    return f"{text}\nmore", "Usage", "more", "one operand too many", f"{words[0]} takes"


def bad_operand(text, chance):
    """Writes an operand that is not of its form."""
    words = text.split()
    if len(words) != 2:
        return None
    wrong = picked([".x", "a/b", "a-b", "x" * 40], chance)
    expected = OPERANDS.get(words[0], "letters, digits, underscores and full stops")
    return f"{words[0]}\n{wrong}", "Usage", wrong, expected, f"{words[0]} takes"


def bad_steps(text, chance):
    """Gives a run a number of steps that is none."""
    command = text.split()[0]
    if command not in ("run", "trace", "bare") or "--steps" in text:
        return None
    wrong = picked(["ten", "10000001", "123456789", "-1", "1e3"], chance)
    return f"{text}\n--steps\n{wrong}", "Usage", wrong, "1 to 8 decimal digits", "10,000,000"


BIND_MUTATORS = (
    misspelt_bind,
    bad_bind_name,
    late_object,
    repeated_object,
    unknown_retained,
    open_bind_line,
)
ACCESS_MUTATORS = (
    misspelt_access,
    wrong_rights,
    wrong_term,
    repeated_term,
    unknown_segment,
    missing_access_word,
)
WORD_MUTATORS = (
    misspelt_command,
    unknown_option,
    foreign_option,
    further_operand,
    bad_operand,
    bad_steps,
)
