"""Readers of the places that list commands, operands, options, defaults and statuses.

`READERS` has for each file the function that takes its text and returns a `Listing`. `read_help`
reads what the program prints. `read_completion` needs bash.
"""

import pathlib
import re
import subprocess
import tempfile
from dataclasses import dataclass

from m36lib.command_lists import (
    DEFAULT_STEPS, LONGEST_MADE_NAME, LONGEST_NAME, MOST_STEPS, SAMPLE_FILES, SEED_DIGITS,
    STEPS_DIGITS, Listing, forms_with, offers,
)

NUMBER_WORDS = {"one": "1", "eight": "8"}


def one_line(text):
    """A text with single blanks between its words."""
    return " ".join(text.split())


def numbers(text, patterns):
    """The number that each pattern finds in its group, in digits or as a word; None for none."""
    found = {}
    for name, pattern in patterns.items():
        match = re.search(pattern, text)
        digits = match and re.sub("[,_]", "", NUMBER_WORDS.get(match[1], match[1]))
        found[name] = int(digits) if digits and digits.isdigit() else None
    return found


def options_of(rows):
    """The commands of each option, from its list: `these` are those of the option before."""
    found, before = {}, []
    for option, text in rows:
        names = re.split(r",? and |, ", text)
        before = [*before, *names[1:]] if names[0] == "these" else names
        found[option] = before
    return found


def section(text, first, last):
    """The part of a text between two patterns."""
    match = re.search(f"{first}(.*?)(?:{last})", text, re.M | re.S)
    return match[1] if match else ""


def forms_of_line(line):
    """The forms of a line such as `debug [FILE]` or `bare FILE [--steps N]`."""
    word, *parts = re.findall(r"\[[^]]*\]|\S+", line)
    options = frozenset(part[1:-1].split()[0] for part in parts if part.startswith("[--"))
    operands = [part for part in parts if not part.startswith("[--")] or [None]
    if operands[0] and operands[0].startswith("["):
        operands = [operands[0][1:-1], None]
    return {(word, operand, options) for operand in operands}


# ---- docs/m36.1

def plain(text):
    """A text of the manual page without its fonts, its quotes and its escapes."""
    return re.sub(r"\\f[A-Z]", "", text).replace("\\-", "-").replace('"', "")


def manual_value(line):
    """The option of a line such as `--steps N, --steps= N`, and its value or None."""
    first = line.split(",")[0].split()
    return first[0], first[1] if len(first) > 1 else None


def manual_forms(text):
    """The forms of the synopsis, and one without sense for a command with no entry, or no form."""
    lines = re.findall(r"^\.B m36 (.*)$", section(text, r"^\.SH SYNOPSIS", r"^\.SH"), re.M)
    forms = set().union(*(forms_of_line(line) for line in lines))
    described = section(text, r"^\.SH COMMANDS", r"^\.SH")
    entries = set(re.findall(r"^\.TP\n\.B (\w+)$", described, re.M))
    unpaired = entries ^ {form[0] for form in forms}
    return forms | {(word, "in one of SYNOPSIS and COMMANDS", frozenset()) for word in unpaired}


def read_manual(text):
    """Reads the manual page."""
    text = plain(text)
    return Listing(
        forms=manual_forms(text),
        values=dict(map(manual_value, re.findall(r"^\.TP\n\.BI? (--\w.*)$", text, re.M))),
        numbers=numbers(one_line(text), {
            LONGEST_NAME: r"FILE and NAME have 1 to (\w+) letters",
            LONGEST_MADE_NAME: r"the NAME of \.B alm and \.B bind has at most (\w+)\.",
            SEED_DIGITS: r"SEED, a number of 1 to (\w+) digits",
            MOST_STEPS: r"the most steps of the run, at most ([\d,]+);",
            DEFAULT_STEPS: r"; without it ([\d,]+)\.",
        }),
        statuses={int(n): name for n, name in re.findall(r"^\.B (\d+)\n(\w+):", text, re.M)},
    )


# ---- docs/COMMANDS.md

def read_commands_page(text):
    """Reads the tables of the page of commands, and the sentence about names."""
    words = re.findall(r"^\| (`.*?`) \| ", text[: text.index("\n## ")], re.M)
    written = [form.split() for row in words for form in row[1:-1].split("`, `")]
    operands = [(form[0], form[1] if len(form) > 1 else None) for form in written]
    part = section(text, "^## Options and operands", "^## ")
    rows = re.findall(r"^\| `(--\w+)( \w+)?`.*? \| (.*?) \| ", part, re.M)
    options = options_of([(word, names.replace("`", "")) for word, _, names in rows])
    return Listing(
        forms=forms_with(operands, options),
        values={word: value.strip() or None for word, value, _ in rows},
        numbers=numbers(one_line(part), {
            LONGEST_NAME: r"FILE and NAME have 1 to (\w+) letters",
            LONGEST_MADE_NAME: r"the NAME of `alm` and of `bind` has at most (\w+)\.",
            SEED_DIGITS: r"SEED is one to (\w+) decimal digits",
            STEPS_DIGITS: r"one to (\w+) digits, at most",
            MOST_STEPS: r"digits, at most ([\d,]+);",
            DEFAULT_STEPS: r"; without it ([\d,]+) ",
        }),
        statuses={int(n): name for n, name in re.findall(r"^\| (\d+) \| (\w+) \| ", text, re.M)},
    )


# ---- the help

@dataclass
class HelpRows:
    """The rows of the help.

    A command is a word and its line, an option a word, its value and its line, a status a number,
    a name and its line. `others` are the lines outside of these lists.
    """

    commands: list
    options: list
    statuses: list
    others: dict

    def operands(self):
        """The commands with their operands, by the names in their lines."""
        for word, line in self.commands:
            found = set(re.findall(r"\b(?:FILE|NAME|USER|SEED)\b", line)) or {None}
            yield from ((word, operand) for operand in found)
            if re.search(r", or (over )?the folder", line):
                yield word, None

    def listing(self):
        """What the rows say."""
        lists = [(word, line.partition(": ")[0]) for word, _, line in self.options]
        lines = dict(self.commands) | {word: line for word, _, line in self.options}
        lines |= {name: line for _, name, line in self.statuses}
        return Listing(
            forms=forms_with(set(self.operands()), options_of(lists)),
            values={word: value or None for word, value, _ in self.options},
            numbers=numbers(lines.get("--steps", ""), {
                MOST_STEPS: r"at most N steps, up to (\d+)",
                DEFAULT_STEPS: r"\[default: (\d+)\]",
            }),
            statuses={int(n): name for n, name, _ in self.statuses},
            lines=lines | self.others,
        )


def status_rows(text):
    """The rows of statuses of a help."""
    return re.findall(r"^  (\d+)  (\w+) +(.*)$", text, re.M)


def example_lines(text):
    """The examples of a help."""
    return tuple(re.findall(r"^  (m36 .*)$", text, re.M))


def read_help_source(text):
    """Reads the source of the help."""
    table = section(text, r"COMMANDS: \[", r"^\];")
    value = r'(?:\s*\.value_name\("(\w+)"\))?'
    options = re.findall(rf'\.long\("(\w+)"\){value}[^"]*?\.help\(\s*"([^"]*)"', text)
    about, usage = (re.search(pattern + r'"([^"]*)"', text)[1]
                    for pattern in (r"\.about\(", r"const USAGE: &str = "))
    return HelpRows(
        commands=re.findall(r'\(\s*"(\w+)",\s*"([^"]*)",?\s*\)', table),
        options=[(f"--{word}", name, line) for word, name, line in options],
        statuses=status_rows(text),
        others={"about": about, "usage": usage, "examples": example_lines(text)},
    ).listing()


def read_help(text):
    """Reads the help as the program prints it."""
    options = section(text, "^Options:\n", "\n\n")
    return HelpRows(
        commands=re.findall(r"^  (\w+) +(.*)$", section(text, "^Commands:\n", "\n\n"), re.M),
        options=re.findall(r"^ +(--\w+)(?: <(\w+)>)? +(.*)$", options, re.M),
        statuses=status_rows(text),
        others={
            "about": text.split("\n")[0],
            "usage": section(text, "^Usage: ", "\n"),
            "examples": example_lines(text),
        },
    ).listing()


# ---- the sources that read the words

def read_word_comment(text):
    """Reads the comment at the head of the definitions of words."""
    head = "\n".join(line[3:] for line in text.split("\nuse ")[0].splitlines())
    lines = re.findall(r"^    ([a-z]+\b.*)$", head, re.M)
    return Listing(
        forms=set().union(*(forms_of_line(line) for line in lines)),
        numbers=numbers(one_line(head), {
            LONGEST_NAME: r"NAME 1 to (\w+) of",
            LONGEST_MADE_NAME: r"of `alm` and `bind` at most (\w+),",
            SEED_DIGITS: r"SEED 1 to (\w+) decimal digits",
            STEPS_DIGITS: r"N 1 to (\w+) decimal digits",
            MOST_STEPS: r"digits, at most ([\d,]+);",
            DEFAULT_STEPS: r"without `--steps` ([\d,]+) ",
        }),
    )


def body_of(text, name):
    """The body of the definition `NAME g`, with the tests that it names put in their places."""
    match = re.search(rf"^{name} g =((?:.*\n)(?: .*\n)*)", text, re.M)
    body = match[1] if match else ""
    return re.sub(r"\b(has_no_option|has_no_run_option) g\b", lambda m: body_of(text, m[1]), body)


REFUSALS = {
    "--steps": "is_none g.steps", "--unaudited": "not g.unaudited", "--user": "is_none g.user",
}


def operands_of_definition(text, name, body):
    """The operands that a command accepts by its definition, and None if it needs none."""
    if "is_none g.operand" in body:
        return [None]
    if "user_given g" in body:
        return ["USER"]
    if "seed_of" in body:
        return ["SEED"]
    operand = "NAME" if "λ name. " in body or f"\n{name}_command name =" in text else "FILE"
    return [operand] + [None] * (f"\n{name}_command None" in text)


def forms_of_definition(text, word, name):
    """The forms that a command accepts by its definition."""
    body = body_of(text, name)
    options = {option for option, refusal in REFUSALS.items() if refusal not in body}
    has_folder_option = f"\n{name}_command (Some o) (Some user) = None\n" in text
    for operand in operands_of_definition(text, name, body):
        refused = {"--user"} if operand and has_folder_option else set()
        yield word, operand, frozenset(options - refused)


def read_definitions(text):
    """Reads the definitions of words."""
    entries = re.findall(r'\(codes "(\w+)", (\w+)\)', section(text, "^commands =", r"\[\]"))
    return Listing(
        forms={form for entry in entries for form in forms_of_definition(text, *entry)},
        numbers=numbers(text, {
            SEED_DIGITS: r"\nseed_of text = short_decimal_in (\d+) 0 ",
            STEPS_DIGITS: r"\nsteps_of text = short_decimal_in (\d+) 0 steps_limit ",
            MOST_STEPS: r"\nsteps_limit = (\d+)\n",
            DEFAULT_STEPS: r"\ndefault_steps = (\d+)\n",
        }),
    )


def read_name_limit(text):
    """Reads the definition of the longest name."""
    return Listing(numbers=numbers(text, {LONGEST_NAME: r"\nname_limit = (\d+)\n"}))


def read_table_code(text):
    """Reads the constants of the code that makes commands."""
    return Listing(numbers=numbers(text, {
        LONGEST_MADE_NAME: r"\nconst LONGEST_MADE_NAME: usize = (\w+);",
        SEED_DIGITS: r"\nconst MOST_SEED_DIGITS: usize = (\w+);",
        DEFAULT_STEPS: r"\nconst DEFAULT_STEPS: u32 = (\w+);",
    }))


def read_words_code(text):
    """Reads the constants of the code that reads words."""
    return Listing(numbers=numbers(text, {
        STEPS_DIGITS: r"\nconst MOST_DIGITS: usize = (\w+);",
        MOST_STEPS: r"\nconst MOST_STEPS: u64 = (\w+);",
    }))


def read_status_names(text):
    """Reads the definitions of the numbers and the names of statuses."""
    names = dict(re.findall(r'^status_name \(?(\w+).*= codes "(\w+)"$', text, re.M))
    numbered = re.findall(r"^status_number \(?(\w+).*= (\d+)$", text, re.M)
    return Listing(statuses={int(n): names.get(constructor) for constructor, n in numbered})


# ---- the completion

COMPLETE = r"""
. "$1" || exit 1
shift
for words; do
    COMP_WORDS=(m36 $words "")
    COMP_CWORD=$((${#COMP_WORDS[@]} - 1))
    COMPREPLY=()
    _m36
    echo "$words: ${COMPREPLY[*]}"
done
"""


def read_completion(text):
    """Reads what the completion offers, by bash, after the words for which it is known."""
    with tempfile.TemporaryDirectory() as folder:
        for name in SAMPLE_FILES:
            (pathlib.Path(folder) / name).touch()
        script = pathlib.Path(folder) / ".completion"
        script.write_text(text)
        words = ["bash", "-c", COMPLETE, "bash", script, *offers()]
        done = subprocess.run(words, cwd=folder, capture_output=True, text=True, timeout=60)
    rows = [line.partition(":") for line in done.stdout.splitlines()]
    return Listing(offers={words: set(names.split()) for words, _, names in rows})


READERS = (
    ("docs/m36.1", read_manual),
    ("docs/COMMANDS.md", read_commands_page),
    ("crates/m36_help/src/lib.rt", read_help_source),
    ("crates/m36_top/specs/Words.antt", read_word_comment),
    ("crates/m36_top/specs/Words.antt", read_definitions),
    ("crates/m36_top/src/table.rt", read_table_code),
    ("crates/m36_top/src/words.rt", read_words_code),
    ("crates/m36_text/specs/Texts.antt", read_name_limit),
    ("crates/m36_status/specs/Names.antt", read_status_names),
)
