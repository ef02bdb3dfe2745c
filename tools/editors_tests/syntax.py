"""Tests of the files for editors: the names in them, and what Vim, Emacs and Pygments make of the
sources of the examples. An editor that is not there is named, and its test skipped."""

import importlib.util
import json
import os
import pathlib
import re
import shutil
import subprocess
import sys
import tempfile

from m36lib.alm_lines import OPERANDS
from m36lib.syntax_names import FILES
from m36lib.table import TABLE

HERE = pathlib.Path(__file__).resolve().parent
TOP = HERE.parents[1]
EDITORS = TOP / "editors"
SECONDS = 60
NAMES = {row.name for row in TABLE.values()}
WRONG = "LDA ldax epp call lda1 sta. xlda 0lda".split()

VIMRC = """
set nocompatible
set runtimepath^={}/vim
filetype plugin on
syntax on
"""
# The group of each character of the file goes to the file `groups`, a line for each line of it.
VIM_GROUPS = """
let lines = []
for row in range(1, line('$'))
  let names = []
  for column in range(1, len(getline(row)))
    call add(names, synIDattr(synID(row, column, 1), 'name'))
  endfor
  call add(lines, join(names))
endfor
call writefile([&filetype] + lines, 'groups')
qa!
"""
VIM_MAKE = """
silent make
let found = filter(getqflist(), {_, it -> it.valid})
call map(found, {_, it -> [fnamemodify(bufname(it.bufnr), ':p'), it.lnum, it.col, it.text]})
call writefile(map(found, {_, it -> join(it)}), 'list')
qa!
"""
# A source in which each group occurs, and the group of each word of it.
SOURCE = '''start: other: lda 5,dl "lda 5
 call6 con_$stop
 sta pr6|7,*x1
 aci /a"b/ "c
 lxx 5
 bss b,8
'''
GROUPS = (
    ("start:", "almLabel"), ("other:", "almLabel"), ("lda", "almInstruction"), ("5", "almNumber"),
    (",dl", "almModifier"), ('"lda 5', "almComment"), ("call6", "almInstruction"),
    ("con_$stop", "almLink"), ("pr6", "almPointer"), (",*x1", "almModifier"), ("aci", "almAci"),
    ('/a"b/', "almText"), ('"c', "almComment"), ("lxx", "almOperation"), ("bss", "almPseudo"),
    ("8", "almNumber"),
)
EMACS = """
(progn
  (load-file "{file}")
  (find-file "{source}")
  (font-lock-ensure)
  (princ (format "%s" major-mode))
  (dolist (word '({words}))
    (goto-char (point-min))
    (search-forward word)
    (princ (format " %s" (get-text-property (1- (point)) 'face)))))
"""


def names(_program):
    """The files have the names of the tables, and of no other."""
    wrong = [f"editors/{name} is not what editors/make writes" for name, with_names in FILES.items()
             if with_names((EDITORS / name).read_text()) != (EDITORS / name).read_text()]
    grammar = json.loads((EDITORS / "vscode/syntaxes/alm.tmLanguage.json").read_text())
    for kind, expected in (("instruction", NAMES), ("pseudo", set(OPERANDS))):
        pattern = re.compile(grammar["repository"][kind]["match"])
        wrong += [f"{it} is no {kind}" for it in expected if not pattern.fullmatch(it)]
        wrong += [f"{it} is an {kind}" for it in (*WRONG, *(NAMES | set(OPERANDS)) - expected)
                  if pattern.search(it)]
    for path in EDITORS.glob("vscode/**/*.json"):
        json.loads(path.read_text())
    return wrong


def missing(name, *features):
    """Whether an editor is not there, or lacks a feature: it is named then."""
    if not shutil.which(name):
        print(f"skipped: the test with {name}, which is not on the path")
        return True
    said = subprocess.run([name, "--version"], capture_output=True, text=True, timeout=SECONDS)
    lacking = [feature for feature in features if feature not in said.stdout]
    if lacking:
        print(f"skipped: the test with {name}, which is built without {' '.join(lacking)}")
    return bool(lacking)


def vim(script, path, room, **environment):
    """Runs a script of Vim with a file."""
    (room / "script.vim").write_text(script)
    (room / "vimrc").write_text(VIMRC.format(EDITORS))
    words = ["vim", "-u", "vimrc", "-i", "NONE", "-es", "-S", "script.vim", path]
    subprocess.run(words, cwd=room, stdin=subprocess.DEVNULL, capture_output=True, timeout=SECONDS,
                   env=environment or None)


def vim_groups(path, room):
    """The type of a file, and the groups of the characters of each line of it."""
    vim(VIM_GROUPS, path, room)
    kind, *lines = (room / "groups").read_text().split("\n")[:-1]
    return kind, [line.split(" ") for line in lines]


def vim_shows(_program):
    """What Vim shows of a source, and that it finds no error in the examples."""
    if missing("vim", "+eval", "+syntax"):
        return []
    wrong = []
    with tempfile.TemporaryDirectory() as work:
        room = pathlib.Path(work)
        path = room / "a.alm"
        path.write_text(SOURCE)
        _, groups = vim_groups(path, room)
        shown = [group for line in groups for group in [*line, ""]]
        place = 0
        for word, group in GROUPS:
            place = SOURCE.index(word, place)
            if set(shown[place : place + len(word)]) != {group}:
                wrong.append(f"Vim: {word} is {shown[place : place + len(word)]}, not {group}")
            place += len(word)
        for path in sorted(TOP.glob("examples/*/*.alm")):
            kind, groups = vim_groups(path, room)
            if kind != "alm" or any("almOperation" in line for line in groups):
                wrong.append(f"Vim: {path.relative_to(TOP)} has an error, or is no source")
        kind, groups = vim_groups(TOP / "examples/say/boot", room)
        if kind != "m36boot" or groups[0][:6] != ["m36bootLine"] * 6:
            wrong.append(f"Vim: a boot text is {kind} {groups[0]}")
    return wrong


def vim_makes(program):
    """`:make` puts a refusal of a source and of a boot text into the quickfix list."""
    if missing("vim", "+eval", "+syntax"):
        return []
    wrong = []
    with tempfile.TemporaryDirectory() as work:
        room, folder = pathlib.Path(work), pathlib.Path(work) / "a folder"
        folder.mkdir()
        (room / "m36").symlink_to(program)
        (folder / "a.alm").write_text(" nop\n lda absent\n")
        (folder / "boot").write_text("frames 24\nwork\n")
        for name, expected in (("a.alm", "2 6 E6"), ("boot", "2 0 D1")):
            path = folder / name
            vim(VIM_MAKE, path, room, PATH=f"{room}:/usr/bin:/bin")
            found = (room / "list").read_text().strip()
            if found != f"{path} {expected}":
                wrong.append(f"Vim: the quickfix list of {name} is {found!r}")
    return wrong


def emacs_shows(_program):
    """What Emacs shows of a source."""
    if missing("emacs"):
        return []
    expected = (("start", "font-lock-function-name-face"), ("call6", "font-lock-keyword-face"),
                ("con_$stop", "font-lock-variable-name-face"),
                ("bss", "font-lock-preprocessor-face"),
                ('"lda 5', "font-lock-comment-face"), ("lxx", "nil"))
    with tempfile.TemporaryDirectory() as room:
        path = pathlib.Path(room) / "a.alm"
        path.write_text(SOURCE)
        quoted = " ".join(json.dumps(word) for word, _ in expected)
        lisp = EMACS.format(file=EDITORS / "emacs/m36.el", source=path, words=quoted)
        done = subprocess.run(["emacs", "-Q", "--batch", "--eval", lisp], capture_output=True,
                              text=True, timeout=SECONDS)
    found = done.stdout.split(" ")
    faces = ["alm-mode", *(face for _, face in expected)]
    return [] if found == faces else [f"Emacs: {found}, not {faces}: {done.stderr[-300:]}"]


def pygments_shows(_program):
    """What Pygments makes of a source, and that it finds no error in the examples."""
    if not importlib.util.find_spec("pygments"):
        print("skipped: the test with Pygments, which is not installed")
        return []
    sys.path.insert(0, str(EDITORS / "pygments"))
    import m36_lexers  # pylint: disable=import-error
    from pygments.token import Token

    lexer, wrong = m36_lexers.AlmLexer(), []
    for path in sorted(TOP.glob("examples/*/*.alm")):
        tokens = list(lexer.get_tokens(path.read_text()))
        wrong += [f"Pygments: {path.relative_to(TOP)}: {text!r}" for kind, text in tokens
                  if kind in Token.Error]
    found = [(text, str(kind)) for kind, text in lexer.get_tokens(SOURCE) if text.strip()]
    for expected in (("start:", "Token.Name.Label"), ("lda", "Token.Keyword"),
                     ("lxx", "Token.Error"), ('"c', "Token.Comment.Single"),
                     ("con_$stop", "Token.Name.Namespace"), ("*x1", "Token.Keyword.Type"),
                     ("bss", "Token.Keyword.Pseudo"), ('a"b', "Token.Literal.String")):
        if expected not in found:
            wrong.append(f"Pygments: no {expected}")
    return wrong


def code_runs(program):
    """The extension of VS Code, with a stand-in for the editor: reports, hover, definitions, and
    how the debug adapter is started."""
    if missing("node"):
        return []
    folder = TOP / "examples/say"
    text = (folder / "main.alm").read_text().replace("stcd", "stcq")
    given = {"extension": str(EDITORS / "vscode/extension.js"), "server": str(TOP / "tools/lsp36"),
             "adapter": "m36-dap", "path": str(folder / "main.alm"), "text": text}
    done = subprocess.run(
        ["node", HERE / "code.js", json.dumps(given)], capture_output=True, text=True,
        timeout=SECONDS, env={**os.environ, "M36_PROGRAM": str(program)})
    if done.returncode:
        return [f"VS Code: {done.stderr[-500:]}"]
    found = json.loads(done.stdout)
    expected = {
        "codes": ["E3"], "range": [5, 1, 5, 5], "severity": 0, "hover": True,
        "definition": f"{folder.as_uri()}/say_.alm", "adapter": "m36-dap",
        "config": {"type": "m36", "request": "launch", "name": "m36", "stopOnEntry": True,
                   "program": str(folder)},
    }
    return [f"VS Code: {name} is {found.get(name)}, not {value}"
            for name, value in expected.items() if found.get(name) != value]


TESTS = (names, vim_shows, vim_makes, emacs_shows, pygments_shows, code_runs)
