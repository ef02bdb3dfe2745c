"""The names of the language in the files of the editors, which editors/make writes.

A file has its lists between the lines `begin names` and `end names`; a grammar for VS Code, which
is JSON, has them as the patterns of its repository."""

import json
import re
import textwrap

from .alm_lines import MODIFIER, OPERANDS, POINTER
from .line_forms import BOOT, KIND
from .table import TABLE

INSTRUCTIONS = sorted({row.name for row in TABLE.values()})
OPERATIONS = sorted(OPERANDS)
LINES = [form.word for form in BOOT]
KINDS = KIND.pattern.split("|")
REGION = re.compile(r"(?P<mark>^\S+ begin names\n).*?(?P<end>^\S+ end names\n)", re.M | re.S)
AFTER = r'(?=[ \t"]|$)'


def between_marks(made):
    """Puts lines between the marks of a file."""
    def with_names(old):
        new, count = REGION.subn(lambda found: found["mark"] + made() + found["end"], old)
        if count != 1:
            raise ValueError(f"{count} times the lines `begin names` and `end names`")
        return new
    return with_names


def wrapped(names, indent, first=""):
    """Names in lines of at most 100 columns."""
    return textwrap.fill(" ".join(names), 99, initial_indent=first or indent,
                         subsequent_indent=indent, break_on_hyphens=False) + "\n"


def parts(pattern):
    """A pattern in parts that have room in a line."""
    return re.findall(r".{1,76}(?:\||$)", pattern)


# Vim.


def vim_pattern(pattern):
    """A pattern of Python in the form of Vim."""
    pattern = pattern.replace("(?:", "(")
    return re.sub(r"\\\*|[(|)?]", lambda it: {"\\*": r"\*", "(": r"\%("}.get(it[0], "\\" + it[0]),
                  pattern)


def vim_keywords(group, names):
    """The keywords of a group, in lines that continue one another."""
    return f"syntax keyword {group} contained\n" + wrapped(names, "      \\ ")


def vim_source():
    modifier, pointer = vim_pattern(MODIFIER.pattern), vim_pattern(POINTER.pattern)
    after = '\\)\\ze\\%([ \\t"]\\|$\\)/ contained'
    return (
        vim_keywords("almInstruction", INSTRUCTIONS)
        + vim_keywords("almPseudo", OPERATIONS)
        + "\n      \\".join(["syntax match almModifier /,\\%(", *parts(modifier)])
        + f"\n      \\{after}\n"
        + f"syntax match almPointer /\\<\\%({pointer}\\)\\ze|/ contained\n"
    )


def vim_boot():
    lines, kinds = "\\|".join(LINES), "\\|".join(KINDS)
    return (
        f"syntax match m36bootLine /^\\%({lines}\\)\\ze /\n"
        f"syntax match m36bootKind / \\zs\\%({kinds}\\)\\ze [rewpnul]\\+\\%( [0-7]\\)\\{{3}}$/\n"
    )


# Pygments and Emacs.


def python_list(name, names):
    return f"{name} = (\n" + wrapped([f'"{it}",' for it in names], "    ") + ")\n"


def pygments_names():
    return (
        python_list("INSTRUCTIONS", INSTRUCTIONS)
        + python_list("OPERATIONS", OPERATIONS)
        + "MODIFIERS = (\n"
        + "".join(f'    r"{part}"\n' for part in parts(MODIFIER.pattern))
        + ")\n"
        + f'POINTERS = r"{POINTER.pattern}"\n'
        + f'LINES = r"(?:{"|".join(LINES)})"\n'
        + f'KINDS = r"(?:{"|".join(KINDS)})"\n'
    )


def lisp_list(name, names, text):
    return f'(defconst {name}\n' + wrapped(
        [f'"{it}"' for it in names], "    ", "  '(").rstrip("\n") + f')\n  "{text}")\n'


def emacs_names():
    return (
        lisp_list("m36-instructions", INSTRUCTIONS, "The instructions of ALM.")
        + lisp_list("m36-operations", OPERATIONS, "The operations that are no instructions.")
        + lisp_list("m36-boot-lines", LINES, "The lines of boot texts.")
        + lisp_list("m36-boot-kinds", KINDS, "The kinds of segments.")
    )


# VS Code.


def grouped(names):
    """The names as a pattern; eight that differ in a last digit from 0 to 7 are one."""
    stems = {}
    for name in names:
        stems.setdefault(re.sub(r"[0-7]$", "", name), []).append(name)
    found = []
    for stem, members in stems.items():
        if len(members) >= 8 and all(f"{stem}{digit}" in members for digit in range(8)):
            found.append(f"{stem}[0-7]")
            members = [name for name in members if name == stem]
        found += members
    return "|".join(found)


def json_patterns(patterns):
    """Puts patterns into the repository of a grammar."""
    def with_names(old):
        grammar = json.loads(old)
        for name, pattern in patterns().items():
            grammar["repository"][name]["match"] = pattern
        return json.dumps(grammar, indent=2) + "\n"
    return with_names


def code_source():
    return {
        "instruction": rf"(?<![\w.])(?:{grouped(INSTRUCTIONS)})(?![\w.])",
        "pseudo": rf"(?<![\w.])(?:{'|'.join(OPERATIONS)})(?![\w.])",
        "modifier": f"(?<=,)(?:{MODIFIER.pattern}){AFTER}",
        "pointer": rf"(?<![\w.])(?:{POINTER.pattern})(?=\|)",
    }


def code_boot():
    return {
        "line": f"^(?:{'|'.join(LINES)})(?= )",
        "kind": f"(?<= )(?:{'|'.join(KINDS)})(?= [a-z]+(?: [0-7]){{3}}$)",
    }


FILES = {
    "vim/syntax/alm.vim": between_marks(vim_source),
    "vim/syntax/m36boot.vim": between_marks(vim_boot),
    "pygments/m36_lexers.py": between_marks(pygments_names),
    "emacs/m36.el": between_marks(emacs_names),
    "vscode/syntaxes/alm.tmLanguage.json": json_patterns(code_source),
    "vscode/syntaxes/m36boot.tmLanguage.json": json_patterns(code_boot),
}
