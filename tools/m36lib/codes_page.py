"""Makes docs/CODES.md from the table of sentences and the smallest inputs. Its lines have at most
100 columns."""

import re
import textwrap

from m36lib.code_words import CODE_GROUPS, INNER_GROUP
from m36lib.inputs import INPUTS
from m36lib.run_words import END_GROUP, FAULT_GROUP, STATUS_GROUP, VIOLATION_GROUP

WIDTH = 100

# Stands for a blank that no line may be broken at.
FIXED = "\ue000"

HEAD = """\
# Codes

What each code says, what to do about it, and the smallest input that gives it. After the codes come
the statuses, the ends of a run, the faults and the access violations. `tools/explain E2`, installed
as `m36-explain`, prints the entry of one of them. On a terminal `m36` prints its sentence after the
line on standard error, with the text that is wrong and the form that is expected.

`tools/explain --page` makes this page from its table. An input is for a shell in an empty folder,
where `m36` is the program and `words` is [tools/words](../tools/words). What `m36` prints follows
after `#`. `BadFile` goes to standard error after `m36: `, with the name of the file, the code, the
place (a line, a word, a byte, a count or a segment, in decimal) and the column; everything else is
in the output. The page named below a heading has the exact rules.
"""

INNER_HEAD = "No command prints these; calls inside the program answer them."


def rules(group):
    """The line that names the page with the rules of a group."""
    section = f", {group.section}" if group.section else ""
    return f"The rules: [{group.page}]({group.page}){section}."


def filled(text, indent=""):
    """A paragraph in lines that are not too long. What is in backticks stays in one line."""
    fixed = re.sub(r"`[^`]*`", lambda found: found[0].replace(" ", FIXED), text)
    lines = textwrap.wrap(
        fixed, WIDTH, subsequent_indent=indent, break_long_words=False, break_on_hyphens=False
    )
    return "\n".join(lines).replace(FIXED, " ")


def capital(text):
    """A text with a capital letter at its beginning."""
    return text[:1].upper() + text[1:]


def sentences(entry):
    """The word of an entry, its name, its sentence, and what to do."""
    name = f", {entry.name}" if entry.name else ""
    end = "" if entry.advice.endswith("?") else "."
    return f"**{entry.word}**{name}: {capital(entry.sentence)}. {capital(entry.advice)}{end}"


def broken(line):
    """A command of a shell in lines that are not too long: quoted text is broken after a `\\n` in
    it, into two quoted parts that the shell joins."""
    lines = []
    while len(line) > WIDTH:
        end = line.rfind(r"\n", 0, WIDTH - 4) + 2
        if end < 2 or line.count("'", 0, end) % 2 == 0:
            break
        lines.append(line[:end] + "'\\")
        line = "'" + line[end:]
    return [*lines, line]


def commands(line):
    """The lines of an input: one for each command where they don't fit into one."""
    parts = [line] if len(line) <= WIDTH else line.split("; ")
    return "\n".join(part for command in parts for part in broken(command))


def with_input(entry):
    """An entry that has a smallest input."""
    line, printed = INPUTS[entry.word]
    return f"{filled(sentences(entry))}\n\n```sh\n{commands(line)}\n# {printed}\n```"


def code_section(group):
    """A group of codes."""
    entries = "\n\n".join(map(with_input, group.entries))
    return f"## {group.title}\n\n{rules(group)}\n\n{entries}\n"


def plain_section(group, head):
    """A group without inputs, with the text that stands under its heading."""
    entries = "\n".join(filled(f"- {sentences(entry)}", "  ") for entry in group.entries)
    return f"## {group.title}\n\n{head}\n\n{entries}\n"


def page():
    """The text of docs/CODES.md."""
    groups = (STATUS_GROUP, END_GROUP, FAULT_GROUP, VIOLATION_GROUP)
    sections = [
        HEAD,
        *map(code_section, CODE_GROUPS),
        plain_section(INNER_GROUP, INNER_HEAD),
        *(plain_section(group, rules(group)) for group in groups),
    ]
    return "\n".join(sections)
