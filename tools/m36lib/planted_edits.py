"""The edits of the account that must be noticed.

Each file of `planted` has those of the module of its name. An edit is lines with `-` before them, a
text that the module has once, and lines with `+` before them, what is put in its place; an empty
line is between two edits. Besides, each instruction of the tables of effects does nothing."""

import pathlib
import re

HERE = pathlib.Path(__file__).resolve().parent
DOES_NOTHING = "do_nothing"
TABLES = (
    ("effects_table.py", re.compile(r'    "\w+": \((\w+), .*\),')),
    ("effects_control.py", re.compile(r'    "\w+": (\w+),')),
)


def text_of(lines, mark):
    return "\n".join(line[1:] for line in lines if line.startswith(mark))


def written_edits():
    for path in sorted((HERE / "planted").glob("*.txt")):
        for block in path.read_text().split("\n\n"):
            lines = block.splitlines()
            if not all(line[:1] in ("-", "+") for line in lines):
                raise ValueError(f"{path.name}: neither - nor + in {block!r}")
            yield f"{path.stem}.py", text_of(lines, "-"), text_of(lines, "+")


def table_edits():
    """Each instruction does nothing in place of what it does."""
    for file, row in TABLES:
        for line in (HERE / file).read_text().splitlines():
            found = row.fullmatch(line)
            if found and found[1] != DOES_NOTHING:
                start, end = found.span(1)
                yield file, line, line[:start] + DOES_NOTHING + line[end:]


def edits():
    """All edits: file, text and what is put in its place."""
    return [*written_edits(), *table_edits()]
