"""What each place says of the command line, to compare it with the table of `m36lib.commands`.

A place is a document or a source that lists commands, operands, options or statuses. The functions
of `m36lib.list_readers` return a `Listing` of each.
"""

import re
from dataclasses import dataclass, fields

from m36lib import commands
from m36lib.help_text import ABOUT, EXAMPLES, USAGE


@dataclass
class Listing:
    """What one place says; a part of which it says nothing is None.

    `forms` are the ways to write a command: its word, its operand or None, and its options.
    `values` has the name of each option's value, `numbers` the limits and the default, `statuses`
    the name of each exit status, `lines` the line of the help for a word, and `offers` what the
    completion offers after some words.
    """

    forms: set | None = None
    values: dict | None = None
    numbers: dict | None = None
    statuses: dict | None = None
    lines: dict | None = None
    offers: dict | None = None


SAMPLE_FILES = ("a.alm", "b.bind", "c")

LONGEST_NAME = "characters of a name"
LONGEST_MADE_NAME = "characters of a name for alm and bind"
SEED_DIGITS = "digits of SEED"
STEPS_DIGITS = "digits of N"
MOST_STEPS = "most steps"
DEFAULT_STEPS = "steps without --steps"


def forms_with(operands, options):
    """The forms of the commands, with the options that each takes.

    `operands` has pairs of a command and its operand or None. `options` has for each option the
    commands that take it; `audit of the folder` is `audit` without an operand.
    """
    forms = set()
    for word, operand in operands:
        own = {word} if operand else {word, f"{word} of the folder"}
        taken = frozenset(option for option, names in options.items() if own & set(names))
        forms.add((word, operand, taken))
    return forms


def most_digits(form):
    """The most digits that the pattern of a number allows."""
    return int(re.search(r",(\d+)}", form.pattern)[1])


def names_offered(command):
    """The names that the completion offers for the operand of a command."""
    if command.operand in (commands.FILE, commands.NAME):
        return set(SAMPLE_FILES)
    if command.operand == commands.MADE_NAME:
        return {{"alm": "a", "bind": "b"}[command.word]}
    return set()


def offers():
    """What the completion offers after some words, in a folder with the files of SAMPLE_FILES.

    First the commands; after a command its options and the files that it reads; and nothing for the
    value of an option.
    """
    found = {"": {command.word for command in commands.COMMANDS}}
    for command in commands.COMMANDS:
        options = {option.word for option in command.options()}
        found[command.word] = options | names_offered(command)
        valued = [option.word for option in command.options() if option.value]
        found |= {f"{command.word} {option}": set() for option in valued}
    return found


def help_lines():
    """The lines of the help by what they describe."""
    lines = {row.word: row.summary for row in (*commands.COMMANDS, *commands.OPTIONS)}
    lines |= {status.name: status.summary for status in commands.STATUSES}
    return lines | {"about": ABOUT, "usage": USAGE, "examples": EXAMPLES}


def of_table():
    """What the table of `m36lib.commands` says, in all parts."""
    operands = set()
    for command in commands.COMMANDS:
        operands.add((command.word, command.operand and command.operand.name))
        if command.is_optional:
            operands.add((command.word, None))
    options = {option.word: set(option.commands) for option in commands.OPTIONS}
    for word, option in commands.FOLDER_ONLY:
        options[option] = options[option] - {word} | {f"{word} of the folder"}
    return Listing(
        forms=forms_with(operands, options),
        values={option.word: option.value and option.value.name for option in commands.OPTIONS},
        numbers={
            LONGEST_NAME: commands.NAME_LIMIT,
            LONGEST_MADE_NAME: commands.MADE_NAME_LIMIT,
            SEED_DIGITS: most_digits(commands.SEED),
            STEPS_DIGITS: most_digits(commands.STEPS),
            MOST_STEPS: commands.STEPS.most,
            DEFAULT_STEPS: int(commands.option_named("--steps").default),
        },
        statuses={status.number: status.name for status in commands.STATUSES},
        lines=help_lines(),
        offers=offers(),
    )


def shown_form(form):
    """A form as it is written: `audit [--user]`."""
    word, operand, options = form
    return " ".join([word, *([operand] if operand else []), *(f"[{o}]" for o in sorted(options))])


def form_differences(found, expected):
    """The forms that are missing or too many."""
    yield from (f"lacks `{shown_form(form)}`" for form in sorted(expected - found, key=shown_form))
    yield from (f"has `{shown_form(form)}`, which the table of commands has not"
                for form in sorted(found - expected, key=shown_form))


ENTRY_NAMES = {
    "values": "the value of {}",
    "numbers": "{}",
    "statuses": "the name of status {}",
    "lines": "the line of {}",
    "offers": "what is offered after `m36 {}`",
}


def entry_differences(part, found, expected):
    """The entries that differ. Of numbers a place has only some."""
    keys = found if part == "numbers" else found.keys() | expected.keys()
    for key in sorted(keys, key=str):
        name = ENTRY_NAMES[part].format(key)
        if key not in found:
            yield f"lacks {name}"
        elif key not in expected:
            yield f"has {name}, which the table of commands has not"
        elif found[key] != expected[key]:
            yield f"{name} is {shown_entry(found[key])}, expected {shown_entry(expected[key])}"


def shown_entry(entry):
    """An entry as a message shows it."""
    return (" ".join(sorted(entry)) or "nothing") if isinstance(entry, set) else repr(entry)


def differences(found, expected):
    """What a place says otherwise than the table."""
    for part in (field.name for field in fields(Listing)):
        own, table = getattr(found, part), getattr(expected, part)
        if own is None:
            continue
        if part == "forms":
            yield from form_differences(own, table)
        else:
            yield from entry_differences(part, own, table)
