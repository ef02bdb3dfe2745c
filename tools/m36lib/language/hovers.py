"""What a hover says: the rule of an instruction, of another operation, of a modifier or a statement
of a boot text; the value of a number or a symbol; and what a link names."""

from ..alm_lines import OCTAL, OPERANDS, SIGNED
from ..line_forms import BOOT, FILE, form_of
from ..rule_words import capital, notes_of, rule_of
from ..table import TABLE
from .catalog import start_of, word_at
from .definitions import OWN, Definitions
from .elements import element_at, layout_of
from ..hover_words import (
    BOOT_LINES, KINDS, OPERATIONS, POINTERS, SECTIONS, modifier_words, pointer_number,
)

ROWS = {row.name: (code, row) for code, row in TABLE.items()}
WORD, HALF = 1 << 36, 1 << 18


def instruction_words(name):
    """The rule of an instruction, a paragraph in each text."""
    (code, bit_27), row = ROWS[name]
    rule = rule_of(row)
    changed = " ".join(rule.indicators)
    place = f"operation code {code:03o}, bit 27 {'on' if bit_27 else 'off'}"
    return [
        f"**{name}** ({place})",
        rule.sentence,
        " ".join(notes_of(row)),
        f"Indicators: {changed}." if changed else "Indicators: none changes.",
    ]


def operation_words(name):
    """What an operation does, or nothing where there is none of this name."""
    if name in ROWS:
        return instruction_words(name)
    if name in OPERATIONS:
        return [f"**{name}** (no instruction)", OPERATIONS[name], f"Takes {OPERANDS[name]}."]
    return []


def number_words(value, digits):
    """A number in decimal and octal; a negative one as it is stored, with this many digits."""
    if value < 0:
        return [f"{value} decimal is {value % 8**digits:0{digits}o} octal in two's complement"]
    return [f"{value} decimal is {value:o} octal"]


def word_words(value):
    """A word in decimal, with its sign where it has one."""
    negative = f", or {value - WORD} with its sign" if value >> 35 else ""
    return [f"{value:o} octal is {value} decimal{negative}"]


class Hovers:
    """Hovers in a document."""

    def __init__(self, workspace, document):
        self.document = document
        self.definitions = Definitions(workspace, document)

    def at(self, place):
        """The paragraphs for a place, and the range that they are about; None where there is
        nothing to say."""
        number, column = self.document.program_place(place)
        raw = self.document.lines()[number - 1]
        if self.document.is_boot():
            return self.of_boot_word(raw, number, column)
        element = element_at(raw, column) if self.document.is_source() else None
        if not element:
            return None
        paragraphs = self.of_element(element)
        if not paragraphs:
            return None
        start = self.document.place_of(number, element.piece.at + 1)
        return paragraphs, self.document.range_of(start, start + len(element.piece.text))

    def of_element(self, element):
        """The paragraphs for an element of a source."""
        text = element.piece.text
        if element.kind == "operation":
            return operation_words(text)
        if element.kind in ("label", "symbol"):
            return self.of_symbol(text)
        if element.kind == "link":
            return self.of_link(element)
        if element.kind == "number":
            return number_words(int(text), 6) if len(text) < 12 else []
        if element.kind == "decimal":
            return number_words(int(text), 12) if is_short(SIGNED, text) else []
        if element.kind == "octal":
            return word_words(int(text, 8)) if is_short(OCTAL, text) else []
        return self.of_words(element.kind, text)

    @staticmethod
    def of_words(kind, text):
        """The paragraphs for a modifier, a pointer register, a section, or `*`."""
        if kind == "modifier":
            words = modifier_words(text)
            return [f"**{text}**: {words}"] if words else []
        if kind == "pointer":
            number = pointer_number(text)
            name = f"PR{number}, also called pr{number} and {POINTERS[number or 0]}"
            return [f"{name}; an offset of 15 bits follows"] if number is not None else []
        if kind == "section":
            return [f"**{text}**: {SECTIONS[text]}"] if text in SECTIONS else []
        return ["**\\***: the place of this line"]

    def of_symbol(self, name):
        """The paragraphs for a symbol of the document."""
        layout = layout_of(self.document)
        total = layout.symbols.get(name)
        if total is None:
            return []
        where = f"line {layout.defined[name]}"
        if total.missing:
            return [f"**{name}**, {where}: its value is not known, since a symbol of it is not "
                    "defined above"]
        section = next((s for s, count in total.places.items() if count == 1), None)
        if total.is_place() and section:
            value = f"word {total.value:o} octal ({total.value}) of the section {section}"
        else:
            value = number_words(total.value, 12)[0]
        return [f"**{name}**, {where}: {value}"]

    def of_link(self, element):
        """The paragraphs for a link: the segment line that the search finds, and the entry."""
        name, entry = element.segment.text, element.entry.text
        if name in OWN:
            return [f"A link to the own section {name[1:]}", *self.of_symbol(entry)]
        catalog, text = self.definitions.catalog()
        if not catalog:
            return [f"A link to {name}; there is no boot text in this folder"]
        segments = catalog.targets(name, self.document.path.stem)
        if not segments:
            return [f"A link to {name}: the boot text has no segment of this name where it is "
                    "searched"]
        segment = segments[0]
        paragraphs = [f"A link to **{name}**, line {segment.line} of boot:",
                      f"`{text.lines()[segment.line - 1]}`", self.rings_of(segment)]
        place = self.definitions.in_sources(segment.file, entry) if entry else None
        if place:
            line, _ = place.text.program_place(place.start)
            paragraphs.append(f"The entry **{entry}** is in {place.path.name}, line {line}.")
        elif entry:
            paragraphs.append(f"No source here defines the entry {entry}.")
        return paragraphs

    @staticmethod
    def rings_of(segment):
        """Which rings may do what with a segment, by its line."""
        kind, mode, one, two, three = segment.words[4:9]
        parts = [f"{rings_words('0', two)} may read it"] if "r" in mode else []
        parts += [f"{rings_words('0', one)} may write it"] if "w" in mode else []
        parts += [f"{rings_words(one, two)} may execute it"] if "e" in mode else []
        if kind == "gate" and "e" in mode and three > two:
            callers = rings_words(str(int(two) + 1), three)
            parts.append(f"{callers} may call its entries, and then ring {two} executes")
        return capital(", ".join(parts)) + "." if parts else "No ring may use it."

    def of_boot_word(self, raw, number, column):
        """The paragraphs for a word of a boot text."""
        words, index = word_at(raw, column)
        form = form_of(raw, BOOT)
        if index is None or not form:
            return None
        start = self.document.place_of(number, start_of(words, index) + 1)
        range_ = self.document.range_of(start, start + len(words[index]))
        if index == 0:
            return [f"**{form}**", BOOT_LINES[form.word]], range_
        if index > len(form.fields):
            return None
        field = form.fields[index - 1]
        paragraphs = [f"**{field.name}** of `{form}`: {field.words}"]
        if field.name == "KIND" and words[index] in KINDS:
            paragraphs.append(f"{words[index]}: {KINDS[words[index]]}")
        if field.name == FILE.name and FILE.fits(words[index]):
            paragraphs += self.file_words(words[index])
        return paragraphs, range_

    def file_words(self, name):
        """What makes a file of the folder."""
        folder, workspace = self.definitions.folder, self.definitions.workspace
        if workspace.text_at(folder / f"{name}.alm"):
            return [f"`m36 alm {name}` makes it of {name}.alm."]
        if workspace.text_at(folder / f"{name}.bind"):
            return [f"`m36 bind {name}` makes it by {name}.bind."]
        return []


def rings_words(first, last):
    """The rings from one to another, in words."""
    return f"ring {first}" if first == last else f"rings {first} to {last}"


def is_short(pattern, text):
    """Whether a text is a number that has room in a word."""
    return bool(pattern.fullmatch(text)) and len(text) < 14


def markdown(paragraphs):
    """The paragraphs as the protocol has them."""
    return {"kind": "markdown", "value": "\n\n".join(paragraphs)}
