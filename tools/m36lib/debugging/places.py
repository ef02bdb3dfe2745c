"""Places as a user writes them.

    main$start  main$start+2     an entry of a segment, and words after it
    main$loop                    a label of its source
    main:12                      line 12 of its source, or the next line that has a word
    12                           the same of the source that is shown
    secret|10  00102|10          a word of a segment, by its name or its number
    pr6|40                       a word by a pointer register, as an instruction would have it
    pr6                          the word to which it points
    loop                         an entry or a label of the segment in which the run is
    .  ic  pc                    the place of the next instruction

Words are octal, as the program prints them; `40.` with a point after it is decimal. Lines are
decimal. `+N` and `-N` may follow any of these except a line."""

import re

from .world import word_of_line

NUMBER = re.compile(r"[0-7]+|[0-9]+\.")
AFTER = re.compile(r"(.+?)([+-])([0-9]+\.?)$")
POINTER = re.compile(r"\$?pr([0-7])(?:\|(-?[0-9]+\.?))?$")
NO_REGISTER = re.compile("(?:pr|x)[0-9]+")
WORDS = 1 << 18
NEXT = (".", "ic", "pc", "$ic", "$pc")


class NoPlace(Exception):
    """The text names no place; says why."""


def number_of(text):
    """An octal number, or a decimal one with a point after it."""
    if not NUMBER.fullmatch(text):
        raise NoPlace(f"{text} is no octal number; a decimal one has a point after it, as 18.")
    return int(text[:-1]) if text.endswith(".") else int(text, 8)


def checked(text):
    """A place without brackets. Refuses what may follow a place elsewhere, but not here."""
    if text.startswith("[") and text.endswith("]"):
        text = text[1:-1].strip()
    if text.startswith("[") or text.endswith("]"):
        raise NoPlace(f"a bracket of {text} is missing")
    if text.endswith(",*"):
        raise NoPlace(f"a place has no modifier; `x/p {text[:-2]}` shows the pair there")
    place, comma, rest = text.partition(",")
    if comma:
        raise NoPlace(f"a place has no comma; a count follows a blank, as in "
                      f"`disassemble {place.strip()} {rest.strip() or 5}`")
    first, *more = text.split()[:2] or [""]
    if more:
        raise NoPlace(f"{more[0]} is not expected after the place {first}")
    return text


class Places:
    """Finds places for a session."""

    def __init__(self, session):
        self.session = session
        self.world = session.world

    def find(self, text, view=None):
        """Segment and word. The registers are those of a view, or of the session."""
        text = checked(text.strip().removeprefix("*").strip())
        registers = (view or self.session).registers
        if not text or text in NEXT:
            return registers.segment, registers.word
        if text.isdecimal():
            return self.line(registers.segment, int(text), text)
        after = AFTER.match(text) if ":" not in text else None
        if after and not POINTER.match(text):
            segment, word = self.find(after[1], view)
            distance = number_of(after[3])
            return segment, (word + (distance if after[2] == "+" else -distance)) % WORDS
        return self.plain(text, registers)

    def plain(self, text, registers):
        pointer = POINTER.match(text)
        if pointer:
            at = registers.pr[int(pointer[1])]
            offset = pointer[2] or "0"
            distance = number_of(offset.lstrip("-"))
            return at.segment, (at.word + (-distance if offset[0] == "-" else distance)) % WORDS
        for mark, find in (("|", self.word), ("$", self.entry), (":", self.named_line)):
            name, found, rest = text.partition(mark)
            if found and name:
                return find(name, rest)
        return self.label(registers.segment, text)

    def segment(self, name):
        """The number of a segment by its name, or by its number in octal."""
        number = self.world.numbers.get(name)
        if number is None and re.fullmatch("[0-7]{1,5}", name):
            number = int(name, 8)
        if number is None:
            raise NoPlace(f"there is no segment {name}")
        return number

    def word(self, name, rest):
        return self.segment(name), number_of(rest) % WORDS

    def entry(self, name, rest):
        return self.label(self.segment(name), rest)

    def named_line(self, name, rest):
        if not rest.isdecimal():
            raise NoPlace(f"{rest} is no number of a line")
        return self.line(self.segment(name.removesuffix(".alm")), int(rest), f"{name}:{rest}")

    def label(self, segment, name):
        """An entry of a segment, or else a label of its source."""
        names = self.world.names
        if hasattr(names, "entries"):
            for word, entry in names.entries(segment):
                if entry == name:
                    return segment, word
        word = self.world.labels(segment).get(name)
        if word is None:
            raise NoPlace(self.why_no_label(segment, name))
        return segment, word

    def why_no_label(self, segment, name):
        if NO_REGISTER.fullmatch(name):
            kind = name.rstrip("0123456789")
            return f"there is no register {name}: there are {kind}0 to {kind}7"
        if name in self.world.numbers:
            return f"{name} is a segment; a word of it is {name}|0"
        return f"there is no entry and no label {name} in {self.world.names.segment(segment)}"

    def line(self, segment, number, text):
        source = self.world.sources.of(segment)
        if source is None:
            raise NoPlace(f"{text}: there is no source of {self.world.names.segment(segment)}")
        if source.problem:
            raise NoPlace(f"{text}: {source.problem}")
        word = word_of_line(source, number)
        if word is None:
            raise NoPlace(f"{text}: no word comes from this line or a later one")
        return segment, word
