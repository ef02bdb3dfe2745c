"""Mutators of boot texts; as those of sources."""

from speak_tests.source_mutants import picked, replaced

LINE = "segment DIR NAME FILE KIND MODE R1 R2 R3"
FORMS = {
    "frames": "frames N",
    "work": "work DIR",
    "library": "library DIR",
    "segment": LINE,
    "name": "name NAME",
    "start": "start RING NAME$ENTRY",
}


def lines_of(text):
    """The lines as lists of words."""
    return [line.split(" ") for line in text.splitlines()]


def numbers_of(text, *kinds):
    """The numbers of the lines of some kinds, counted from 0."""
    return [n for n, words in enumerate(lines_of(text)) if words[0] in kinds]


def code_without(text, number):
    """The code where this line is malformed: D3 where a work or library line needs it, else D1."""
    lines = lines_of(text)
    if lines[number][0] != "segment":
        return "D1"
    left = {words[1] for n, words in enumerate(lines) if words[0] == "segment" and n != number}
    named = {words[1] for words in lines if words[0] in ("work", "library")}
    return "D1" if named <= left else "D3"


def with_word(text, number, index, word):
    """The text with another word in a line."""
    words = lines_of(text)[number]
    words[index] = word
    return replaced(text, number, " ".join(words))


def unknown_line(text, chance):
    """Puts a letter after the first word of a line."""
    number = picked(numbers_of(text, *FORMS), chance)
    wrong = lines_of(text)[number][0] + "x"
    mutant = with_word(text, number, 0, wrong)
    return mutant, code_without(text, number), wrong, "one of frames, work, library, segment"


def doubled_blank(text, chance):
    """Puts a second blank between two words."""
    number = picked(numbers_of(text, *FORMS), chance)
    words = lines_of(text)[number]
    index = 1 + chance.randrange(len(words) - 1)
    mutant = with_word(text, number, index, " " + words[index])
    form = FORMS[words[0]]
    return mutant, code_without(text, number), " ".join(words), "single blanks", form


def wrong_mode(text, chance):
    """Writes the letters of a mode in another order, or others."""
    number = picked(numbers_of(text, "segment"), chance)
    wrong = picked(["er", "rx", "wr", "R", "none"], chance)
    mutant = with_word(text, number, 5, wrong)
    return mutant, code_without(text, number), wrong, "r e w p in this order", LINE


def wrong_kind(text, chance):
    """Writes a kind of segment that there is not."""
    number = picked(numbers_of(text, "segment"), chance)
    wrong = picked(["objekt", "Gate", "text", "dat"], chance)
    mutant = with_word(text, number, 4, wrong)
    return mutant, code_without(text, number), wrong, "object, gate or data", LINE


def wrong_ring(text, chance):
    """Writes a ring that there is not."""
    number = picked(numbers_of(text, "segment"), chance)
    wrong = picked(["8", "9", "10", "-1"], chance)
    mutant = with_word(text, number, 6 + chance.randrange(3), wrong)
    return mutant, code_without(text, number), wrong, "one octal digit", LINE


def missing_word(text, chance):
    """Leaves the last word of a line out."""
    number = picked(numbers_of(text, *FORMS), chance)
    words = lines_of(text)[number]
    wrong = " ".join(words[:-1])
    return replaced(text, number, wrong), code_without(text, number), wrong, FORMS[words[0]]


def further_word(text, chance):
    """Puts a word after the last one of a line."""
    number = picked(numbers_of(text, *FORMS), chance)
    words = lines_of(text)[number]
    mutant = replaced(text, number, " ".join([*words, "more"]))
    return mutant, code_without(text, number), "more", FORMS[words[0]]


def wrong_count(text, chance):
    """Writes a count of frames that is out of range, or none."""
    wrong = picked(["0", "8193", "many", "24k"], chance)
    return with_word(text, 0, 1, wrong), "D1", wrong, "from 1 to 8192"


def swapped_lines(text, _chance):
    """Puts the work line before the frames line."""
    lines = text.splitlines()
    mutant = "\n".join([lines[1], lines[0], *lines[2:]]) + "\n"
    return mutant, "D1", lines[1], "frames N"


def repeated_name(text, chance):
    """Gives a segment its own name again."""
    number = picked(numbers_of(text, "segment"), chance)
    words = lines_of(text)[number]
    mutant = replaced(text, number, " ".join(words) + f"\nname {words[2]}")
    return mutant, "D2", words[2], "each name once"


def falling_brackets(text, chance):
    """Lets R1 be above R2."""
    number = picked(numbers_of(text, "segment"), chance)
    words = lines_of(text)[number][:6] + ["5", "4", "6"]
    mutant = replaced(text, number, " ".join(words))
    return mutant, "D4", " ".join(words[4:]), "R1 <= R2 <= R3"


def missing_start(text, _chance):
    """Leaves the start line out."""
    lines = text.splitlines()[:-1]
    return "\n".join(lines) + "\n", "D6", lines[-1], FORMS["start"]


BOOT_MUTATORS = (
    unknown_line,
    doubled_blank,
    wrong_mode,
    wrong_kind,
    wrong_ring,
    missing_word,
    further_word,
    wrong_count,
    swapped_lines,
    repeated_name,
    falling_brackets,
    missing_start,
)
