"""Says which word of a command line is wrong, and why.

`wrong_word(words)` returns None where the words are a command, and else a `Wrong`: the word, and
one sentence with the reason and what the command takes. The words are taken from left to right by
the rules of `m36lib.commands`; the first wrong one is named. Names that are not known are
refused without a hint.
"""

from dataclasses import dataclass

from m36lib.commands import COMMANDS, FOLDER_ONLY, command_named, option_named
from m36lib.shown import quoted


@dataclass(frozen=True)
class Wrong:
    """The word that is wrong (None where one is missing), and the sentence for it."""

    word: str | None
    sentence: str


def takes(command):
    """What a command takes, in words: its operand and its options."""
    parts = []
    if command.operand:
        parts.append(f"[{command.operand.name}]" if command.is_optional else command.operand.name)
    for option in command.options():
        value = f" {option.value.name}" if option.value else ""
        parts.append(f"[{option.word}{value}]")
    return f"{command.word} takes {' '.join(parts) if parts else 'no further word'}"


def no_command(word):
    """The sentence for a first word that no command has."""
    names = ", ".join(command.word for command in COMMANDS)
    if word is None:
        return Wrong(None, f"a command is missing: expected one of {names}")
    return Wrong(word, f"there is no command {quoted(word)}: expected one of {names}")


class Reader:
    """Reads the words after a command, and keeps the first that is wrong."""

    def __init__(self, command):
        self.command = command
        self.operand = None
        self.options = {}
        self.only_operands = False
        self.awaited = None

    def wrong(self, word, why):
        """A wrong word, with what the command takes."""
        return Wrong(word, f"{why}; {takes(self.command)}")

    def read(self, word):
        """Reads one word. Returns what is wrong with it, or None."""
        if self.awaited:
            option, self.awaited = self.awaited, None
            return self.read_value(option, word, word)
        if self.only_operands or not word.startswith("-"):
            return self.read_operand(word)
        return self.read_option(word)

    def read_option(self, word):
        """Reads a word that begins with a minus."""
        if word == "--":
            self.only_operands = True
            return None
        name, equals, value = word.partition("=")
        option = option_named(name)
        if option is None:
            return self.wrong(word, f"there is no option {quoted(name)}")
        if option not in self.command.options():
            return self.wrong(word, f"{self.command.word} does not take {quoted(option.word)}")
        if option.word in self.options:
            return self.wrong(word, f"{quoted(option.word)} is given twice")
        if not option.value and equals:
            return self.wrong(word, f"{option.word} takes no value, and is {quoted(word)}")
        if not option.value:
            self.options[option.word] = word
        elif equals:
            return self.read_value(option, value, word)
        else:
            self.awaited = option
        return None

    def read_value(self, option, value, word):
        """Reads the value of an option, which is the word or a part of it."""
        if not option.value.fits(value):
            form = option.value
            return self.wrong(
                word,
                f"{quoted(value)} after {option.word} is no {form.name}, which is {form.words}",
            )
        self.options[option.word] = value
        return self.folder_only(word)

    def read_operand(self, word):
        """Reads an operand."""
        form = self.command.operand
        if form is None:
            return self.wrong(word, f"{quoted(word)} is one operand too many")
        if self.operand is not None:
            return self.wrong(word, f"{quoted(word)} is one operand too many")
        if not form.fits(word):
            return self.wrong(word, f"{quoted(word)} is no {form.name}, which is {form.words}")
        self.operand = word
        return self.folder_only(word)

    def folder_only(self, word):
        """Whether an option of the folder and an operand are both given."""
        for option in self.options:
            if self.operand is not None and (self.command.word, option) in FOLDER_ONLY:
                return self.wrong(
                    word,
                    f"{self.command.word} takes {option} for the folder alone, "
                    f"not together with {self.command.operand.name} {quoted(self.operand)}",
                )
        return None

    def end(self):
        """What is missing after the last word, or None."""
        if self.awaited:
            form = self.awaited.value
            return self.wrong(
                None, f"{form.name} is missing after {self.awaited.word}; it is {form.words}"
            )
        form = self.command.operand
        if form and not self.command.is_optional and self.operand is None:
            return self.wrong(None, f"{form.name} is missing, which is {form.words}")
        return None


def wrong_word(words):
    """The first wrong word of a command line with its sentence; None where it is a command."""
    command = command_named(words[0]) if words else None
    if command is None:
        return no_command(words[0] if words else None)
    reader = Reader(command)
    for word in words[1:]:
        wrong = reader.read(word)
        if wrong:
            return wrong
    return reader.end()
