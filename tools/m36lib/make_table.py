#!/usr/bin/env python3
"""Writes the instruction table of the tools from that of the program.

    make_table.py > table.py         writes the table
    make_table.py --check            compares table.py with it
    make_table.py --help             prints this

The table is read from crates/m36_inst of the repository. The exit status is 0, 1 where table.py is
not the table, and 2 where the words are wrong."""

import pathlib
import re
import sys

HERE = pathlib.Path(__file__).resolve().parent
CRATE = HERE.parents[1] / "crates/m36_inst"
ROW = re.compile(r'\(b"([a-z0-9]+) *" (\w+) (\d) (\w+)((?: \w+)*)\)|(?<![\w"])_(?![\w"])')
BLOCK = re.compile(r"macro_rules! rows_(\d00)(_on)? .*?\$make!\[\$\(\$with\)\* \[(.*?)\]\]", re.S)
HEAD = '''"""The instruction table, as make_table.py writes it from that of the program.

A key is an operation code and whether bit 27 is on. Of each instruction the row has its name, what
it does, the register that a digit of the name says, its operand kind (docs/MANUAL.md, section 4),
whether it takes a direct operand, and whether it is privileged."""

from typing import NamedTuple


class Row(NamedTuple):
    name: str
    effect: str
    register: int
    operand: str
    direct: bool
    privileged: bool


TABLE = {
'''


def rows_of(text):
    """The rows of one source: code, whether bit 27 is on, and the parts of the row."""
    for start, on, body in BLOCK.findall(text):
        body = re.sub(r"//.*", "", body)
        cells = list(ROW.finditer(body))
        if len(cells) != 64:
            raise ValueError(f"{len(cells)} rows in the block of {start}")
        for offset, cell in enumerate(cells):
            if cell.group(1):
                yield int(start, 8) + offset, bool(on), cell.groups()


def table_text(crate=CRATE):
    """The text of table.py, from the sources of m36_inst."""
    found = {}
    for path in sorted((crate / "src/codes").glob("*.rt")):
        for code, bit_27, cells in rows_of(path.read_text()):
            found[code, bit_27] = cells
    lines = []
    for (code, bit_27), (name, effect, register, operand, marks) in sorted(found.items()):
        unknown = set(marks.split()) - {"direct", "privileged"}
        if unknown:
            raise ValueError(f"{name}: unknown mark {unknown.pop()}")
        flags = f"{'direct' in marks}, {'privileged' in marks}"
        values = f'"{name}", "{effect}", {register}, "{operand}", {flags}'
        lines.append(f"    (0o{code:03o}, {bit_27}): Row({values}),\n")
    return HEAD + "".join(lines) + "}\n"


def main(words):
    if words == ["--help"]:
        print(__doc__)
        return 0
    if words not in ([], ["--check"]):
        print(__doc__, file=sys.stderr)
        return 2
    text = table_text()
    if not words:
        print(text, end="")
        return 0
    if text == (HERE / "table.py").read_text():
        return 0
    print("table.py is not what make_table.py writes", file=sys.stderr)
    return 1


if __name__ == "__main__":
    sys.exit(main(sys.argv[1:]))
