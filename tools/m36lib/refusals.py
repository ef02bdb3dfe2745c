"""A refusal `m36: BadFile FILE CODE LINE COLUMN` in words.

`refusal_in_words` gives the line of the file with a caret, and a sentence: that of the code in
`m36lib.words`, the text that is wrong, and the form that was expected. The file is read again, and
may have changed meanwhile: whatever can't be found is left out, and the sentence of the code stays.
"""

import re

from m36lib import alm_forms, alm_values, boot_refusals, file_refusals
from m36lib import image_refusals, list_refusals
from m36lib.alm_lines import cut
from m36lib.shown import plain, quoted
from m36lib.texts import read_text
from m36lib.user_rights import user_of
from m36lib.words import code_entry

REFUSAL = re.compile(r"m36: BadFile (\S+) ([A-Z][0-9]) ([0-9]+) ([0-9]+)")

# Lines of more bytes are not shown, nor are the symbols of larger sources looked up.
SHOWN_LIMIT = 200
SOURCE_LIMIT = 1024 * 1024

# By the letter of the code: the finder of a text in lines.
LINE_FINDERS = {
    "B": list_refusals.find,
    "C": list_refusals.find,
    "I": image_refusals.find,
    "P": image_refusals.find,
}
BOOT_LETTERS = "DU"
FORM_FINDERS = {
    "E1": alm_forms.character_refused,
    "E2": alm_forms.form_refused,
    "E3": alm_forms.operation_refused,
    "E4": alm_forms.number_refused,
}
# The place of these codes is a line of the file.
LINE_LETTERS = "BCDEIP"


def source_finding(code, text, number, column):
    """What is wrong in a source."""
    raw = text.line(number).encode("utf-8", "surrogateescape").decode("latin-1")
    if code in FORM_FINDERS:
        return FORM_FINDERS[code](cut(raw), raw, column)
    if sum(map(len, text.lines)) > SOURCE_LIMIT:
        return None
    lines = [line.encode("utf-8", "surrogateescape").decode("latin-1") for line in text.lines]
    return alm_values.find(code, lines, number, column)


def finding_of(name, code, number, column, text, words):
    """What is wrong, or None where it can't be found: the file may be another one by now, and is
    then not refused for this code at this place."""
    try:
        if code in file_refusals.FINDERS:
            return file_refusals.find(code, name, number)
        if code[0] == "E":
            return source_finding(code, text, number, column)
        if code[0] in BOOT_LETTERS:
            return boot_refusals.find(code, text, number, user_of(words))
        return LINE_FINDERS[code[0]](code, text, number)
    except Exception:  # pylint: disable=broad-except
        return None


def shown_line(line, column):
    """A line of a file, with a caret under a column where it has one. A character of several bytes
    takes one column."""
    data = line.encode("utf-8", "surrogateescape")
    if len(data) > SHOWN_LIMIT:
        return []
    rows = ["  " + "\t".join(plain(part) for part in line.split("\t"))]
    if column:
        lead = data[: column - 1].decode("utf-8", "replace").ljust(column - 1 - len(data))
        rows.append("  " + re.sub(r"[^\t]", " ", lead) + "^")
    return rows


def sentence_of(code, finding):
    """The sentence of a code, with what is wrong."""
    entry = code_entry(code)
    general = f"{code}: {entry.sentence}" if entry else code
    return f"{general}: {finding.sentence}" if finding else general


def later_line(code, text, number):
    """After D3: the later line of the boot text that is malformed, shown and in words."""
    later = boot_refusals.later_malformed(text, number) if code == "D3" else None
    if not later:
        return [], []
    place, finding = later
    sentence = f"{code}: line {place} does not count, since it does not have its form: "
    return shown_line(text.line(place), finding.column), [sentence + finding.sentence]


def refusal_in_words(status_line, words=()):
    """What follows a status line of BadFile after these command words: pairs of lines to be shown
    as they are, and sentences. None where the line is none of BadFile."""
    match = REFUSAL.fullmatch(status_line)
    if not match:
        return None
    name, code, number, column = match[1], match[2], int(match[3]), int(match[4])
    text = read_text(name) if code not in file_refusals.FINDERS else None
    finding = finding_of(name, code, number, column, text, words)
    line = text.line(number) if text and code[0] in LINE_LETTERS else None
    shown = []
    if line is not None:
        shown = shown_line(line, column or (finding.column if finding else 0))
    if not finding and line:
        sentence = f"{sentence_of(code, None)}: {quoted(line)}"
    else:
        sentence = sentence_of(code, finding)
    parts = [(shown, [sentence])]
    return parts + ([later_line(code, text, number)] if text else [])
