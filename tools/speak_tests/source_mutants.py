"""Mutators of sources. Each takes a right source and a source of chance, and returns the wrong
source, its code, the text at fault and words of the expected form; or None where it does not suit.
"""

import re

STATEMENT = re.compile(r"((?:\w[\w.]*:)?[ \t]+)([a-z]+\d?)(?:([ \t]+)([^ \t\"]+))?(.*)")
DIRECTIVES = "entry segdef equ use dec oct aci zero bss even entrybound end".split()
LABEL = re.compile(r"([A-Za-z_][\w.]*):")


def picked(items, chance):
    """One of some items, or None where there is none."""
    return items[chance.randrange(len(items))] if items else None


def statements(text):
    """The lines before `end` that have an operation: (number, match)."""
    found = []
    for number, line in enumerate(text.splitlines()):
        match = STATEMENT.fullmatch(line)
        if match and match[2] == "end":
            break
        if match:
            found.append((number, match))
    return found


def instructions(text, pattern=r".+"):
    """The statements that are instructions whose operand matches a pattern."""
    return [
        (number, match)
        for number, match in statements(text)
        if match[2] not in DIRECTIVES and match[4] and re.fullmatch(pattern, match[4])
    ]


def directives(text, *names):
    """The statements of these directives."""
    return [(n, match) for n, match in statements(text) if match[2] in names and match[4]]


def replaced(text, number, line):
    """The text with another line."""
    lines = text.splitlines()
    lines[number] = line
    return "\n".join(lines) + "\n"


def with_operand(text, found, operand):
    """The text with another operand in a statement."""
    number, match = found
    return replaced(text, number, f"{match[1]}{match[2]}{match[3]}{operand}{match[5]}")


def unknown_operation(text, chance):
    """Puts letters after an operation."""
    number, match = picked(statements(text), chance)
    wrong = match[2] + "qz"
    line = f"{match[1]}{wrong}{match[3] or ''}{match[4] or ''}{match[5]}"
    return replaced(text, number, line), "E3", wrong, "instruction", "section 9"


def large_letters(text, chance):
    """Writes an operation in large letters."""
    number, match = picked(statements(text), chance)
    wrong = match[2].upper()
    line = f"{match[1]}{wrong}{match[3] or ''}{match[4] or ''}{match[5]}"
    return replaced(text, number, line), "E3", wrong, "small letters"


def unknown_modifier(text, chance):
    """Gives an operand a modifier that there is not."""
    found = picked(instructions(text, r"[^,]+"), chance)
    if not found:
        return None
    wrong = picked(["zz", "x9", "pr1", "*qq", "al**", "9"], chance)
    mutant = with_operand(text, found, f"{found[1][4]},{wrong}")
    return mutant, "E2", wrong, "modifier", "x0 to x7"


def blank_modifier(text, chance):
    """Puts a blank after the comma of an operand."""
    found = picked(instructions(text, r"[^,]+,[^,]+"), chance)
    if not found:
        return None
    body, modifier = found[1][4].split(",")
    return with_operand(text, found, f"{body}, {modifier}"), "E2", f" {modifier}", "modifier"


def unknown_symbol(text, chance):
    """Names a symbol that the source does not define."""
    found = picked(instructions(text), chance)
    if not found:
        return None
    wrong = f"nosuch{chance.randrange(100)}"
    return with_operand(text, found, wrong), "E6", wrong, "a label of this source"


def large_number(text, chance):
    """Writes a number over 262143."""
    found = picked(instructions(text), chance)
    if not found:
        return None
    wrong = str(262144 + chance.randrange(1000000))
    return with_operand(text, found, wrong), "E4", wrong, "from 0 to 262143"


def leading_zero(text, chance):
    """Puts a zero before a decimal number."""
    found = picked(instructions(text, r"[1-9]\d*(,.*)?"), chance)
    if not found:
        return None
    wrong = "0" + re.match(r"\d+", found[1][4])[0]
    return with_operand(text, found, "0" + found[1][4]), "E2", wrong, "leading zero"


def foreign_character(text, chance):
    """Puts a character before an operation that no source may have."""
    number, match = picked(statements(text), chance)
    wrong = picked("#!%&;=?@~", chance)
    line = f"{match[1]}{wrong}{match[0][len(match[1]):]}"
    return replaced(text, number, line), "E1", wrong, "letters, digits, blanks"


def repeated_label(text, chance):
    """Defines a label a second time, at the end."""
    labels = [label for line in text.splitlines() for label in LABEL.findall(line)]
    if not labels or re.search(r"^\s+end", text, re.M):
        return None
    wrong = picked(labels, chance)
    return f"{text}{wrong}: nop 0\n", "E5", wrong, "each symbol once"


def unknown_pointer(text, chance):
    """Names a pointer register that there is not."""
    found = picked(instructions(text, r"pr\d\|.*"), chance)
    if not found:
        return None
    wrong = picked(["pr8", "pr", "px1", "qq", "sp1"], chance)
    mutant = with_operand(text, found, wrong + found[1][4][3:])
    return mutant, "E2", wrong, "pr0 to pr7", "PR|EXPR"


def far_offset(text, chance):
    """Writes an offset that fifteen bits can't hold."""
    found = picked(instructions(text, r"pr\d\|\d+(,.*)?"), chance)
    if not found:
        return None
    wrong = str(16384 + chance.randrange(1000))
    operand = re.sub(r"\|\d+", f"|{wrong}", found[1][4])
    return with_operand(text, found, operand), "E7", wrong, "from -16384 to 16383"


def missing_names(text, chance):
    """Takes the names of an entry line away."""
    found = picked(directives(text, "entry", "segdef"), chance)
    if not found:
        return None
    number, match = found
    wrong = match[2]
    return replaced(text, number, match[1] + wrong), "E2", wrong, "names of labels"


def doubled_comma(text, chance):
    """Leaves a name between two commas out."""
    found = picked(directives(text, "entry", "segdef"), chance)
    if not found:
        return None
    wrong = f"{found[1][4]},,more"
    return with_operand(text, found, wrong), "E2", wrong, "names of labels"


def sum_of_labels(text, chance):
    """Adds a label to itself."""
    labels = [label for line in text.splitlines() for label in LABEL.findall(line)]
    found = picked(instructions(text), chance)
    if not found or not labels:
        return None
    label = picked(labels, chance)
    wrong = f"{label}+{label}"
    return with_operand(text, found, wrong), "E7", wrong, "one label"


def wrong_section(text, chance):
    """Puts an instruction without a label into the linkage section."""
    fitting = [(n, match) for n, match in instructions(text) if ":" not in match[1]]
    found = picked(fitting, chance)
    if not found or re.search(r"\buse\b", text):
        return None
    number, match = found
    mutant = replaced(text, number, f" use link\n{match[0]}\n use text")
    return mutant, "E7", match[2], "section text"


def octal_eight(text, chance):
    """Writes a digit 8 in an octal number."""
    found = picked(directives(text, "oct"), chance)
    if not found:
        return None
    first, *others = found[1][4].split(",")
    wrong = first[:-1] + "8"
    return with_operand(text, found, ",".join([wrong, *others])), "E2", wrong, "octal number"


def open_text(text, chance):
    """Leaves the closing delimiter of a text out."""
    lines = [n for n, line in enumerate(text.splitlines()) if " aci " in line]
    number = picked(lines, chance)
    if number is None:
        return None
    line = text.splitlines()[number].rstrip()[:-1]
    wrong = line.split(" aci ")[1]
    return replaced(text, number, line), "E2", wrong, "two equal characters"


def unneeded_operand(text, chance):
    """Gives entrybound an operand."""
    numbers = [n for n, match in statements(text) if match[2] in ("entrybound", "even")]
    number = picked(numbers, chance)
    if number is None:
        return None
    wrong = str(chance.randrange(100))
    line = f"{text.splitlines()[number]} {wrong}"
    return replaced(text, number, line), "E2", wrong, "no operand"


SOURCE_MUTATORS = (
    unknown_operation,
    unknown_modifier,
    unknown_symbol,
    large_number,
    foreign_character,
    repeated_label,
    unknown_pointer,
    far_offset,
    missing_names,
    sum_of_labels,
    leading_zero,
    blank_modifier,
    wrong_section,
    octal_eight,
    open_text,
    doubled_comma,
    large_letters,
    unneeded_operand,
)
