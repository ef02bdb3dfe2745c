"""The command line of m36 as one table: commands, operands, options with defaults, statuses.

The program reads its words by its own table (`m36_top:Words`). This table restates it, for the
tool that says which word is wrong and for the check that compares the help, the manual page, the
completion and COMMANDS.md. `tools/speak-check` compares it with the program: each list of words
that it generates must be a command here exactly if the program does not answer Usage.
"""

import re
from dataclasses import dataclass

NAME_LIMIT = 32
MADE_NAME_LIMIT = 27


@dataclass(frozen=True)
class Form:
    """The form of an operand or of the value of an option: a pattern, the words for it, and the
    greatest number."""

    name: str
    pattern: str
    words: str
    most: int | None = None

    def fits(self, text):
        """Whether a word has this form."""
        if not re.fullmatch(self.pattern, text, re.ASCII):
            return False
        return self.most is None or int(text) <= self.most


@dataclass(frozen=True)
class Option:
    """An option: its word, the form of its value if it has one, and the default of that value."""

    word: str
    value: Form | None
    default: str | None
    commands: tuple[str, ...]
    summary: str


@dataclass(frozen=True)
class Command:
    """A command: its word, its operand if it takes one, and whether that may be left out."""

    word: str
    operand: Form | None
    is_optional: bool
    summary: str

    def options(self):
        """The options that this command takes, in the order of the table."""
        return [option for option in OPTIONS if self.word in option.commands]


@dataclass(frozen=True)
class Status:
    """A way in which a call ends: the exit status, its name, and the line of the help."""

    number: int
    name: str
    summary: str


NAME_WORDS = (
    f"1 to {NAME_LIMIT} letters, digits, underscores and full stops, not beginning with a full stop"
)
MADE_NAME_WORDS = NAME_WORDS.replace(str(NAME_LIMIT), str(MADE_NAME_LIMIT))

FILE = Form("FILE", r"(?!\.)[A-Za-z0-9_.]{1,32}", NAME_WORDS)
NAME = Form("NAME", FILE.pattern, NAME_WORDS)
MADE_NAME = Form("NAME", r"(?!\.)[A-Za-z0-9_.]{1,27}", MADE_NAME_WORDS)
SEED = Form("SEED", r"[0-9]{1,18}", "a number of 1 to 18 decimal digits")
USER = Form(
    "USER",
    r"[A-Za-z0-9_]{1,32}\.[A-Za-z0-9_]{1,32}\.[a-z]",
    "Person.Project.tag: twice 1 to 32 letters, digits and underscores, and one small letter",
)
STEPS = Form("N", r"[0-9]{1,8}", "1 to 8 decimal digits, at most 10,000,000", 10_000_000)

COMMANDS = (
    Command("bare", FILE, False, "audit the bare image FILE, and run it with a trace"),
    Command("audit", FILE, True, "audit the bare image FILE, or the folder once it is booted"),
    Command("run", None, False, "boot the folder, audit it, and run it with its console"),
    Command("trace", None, False, "the same, with a line for each step and each service"),
    Command("access", USER, False, "tell what USER may do with each segment of the folder"),
    Command("procs", FILE, False, "audit the processes of FILE, and run their schedule"),
    Command("debug", FILE, True, "hold a session over the bare image FILE, or over the folder"),
    Command("alm", MADE_NAME, False, "assemble NAME.alm, write the object NAME, and list it"),
    Command(
        "bind", MADE_NAME, False, "bind what NAME.bind names, write the object NAME, and print it"
    ),
    Command("print", NAME, False, "print the object NAME"),
    Command(
        "make", SEED, False, "write the folder that SEED makes, boot it, audit it, and run it"
    ),
)

OPTIONS = (
    Option(
        "--steps",
        STEPS,
        "100000",
        ("bare", "run", "trace"),
        "bare, run, trace: at most N steps, up to 10000000 [default: 100000]",
    ),
    Option(
        "--unaudited",
        None,
        None,
        ("bare", "run", "trace", "procs"),
        "these, and procs: run though the audit fails",
    ),
    Option(
        "--user",
        USER,
        None,
        ("audit", "run", "trace"),
        "run, trace, audit of the folder: with the rights of USER",
    ),
)

# `audit` takes --user for the folder alone, so not together with its operand.
FOLDER_ONLY = {("audit", "--user")}

STATUSES = (
    Status(0, "Done", "written whole; a run came to DIS, an audit alone passes"),
    Status(1, "Usage", "the words are no command"),
    Status(2, "ReadFault", "a file or the input can't be read"),
    Status(3, "WriteFault", "the output or a file can't be written"),
    Status(4, "BadFile", "a file is absent or refused, with its code and place"),
    Status(5, "AuditNo", "the audit fails, so nothing is run"),
    Status(6, "MachineStop", "the run ends by a fault, a stop, or a refused service"),
    Status(7, "Steps", "the limit of steps is met"),
    Status(8, "NoMemory", "no memory is found"),
)


def command_named(word):
    """The command of this word, or None."""
    return next((command for command in COMMANDS if command.word == word), None)


def option_named(word):
    """The option of this word, or None."""
    return next((option for option in OPTIONS if option.word == word), None)


def status_numbered(number):
    """The status of this number, or None."""
    return next((status for status in STATUSES if status.number == number), None)
