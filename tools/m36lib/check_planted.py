"""Turns each rule of the account in a copy, and sees whether the comparison notices it.

The machine's side of the runs is recorded once; each turned copy is then held against that."""

import importlib
import multiprocessing
import pathlib
import shutil
import sys
import tempfile

from . import cases, check_account, planted_edits
from .tape import Recording

HERE = pathlib.Path(__file__).resolve().parent
RUNS = []
CHECKED_BY = {
    "machine.py": "check_machine",
    "account_of_end.py": "check_folder",
    "disassemble.py": "check_folder",
    "recorder.py": "check_folder",
    "table.py": "check_folder",
}


def record(program, work):
    """The runs with the machine's answers."""
    for kind in cases.SMALL:
        for case in kind(program, work):
            recording = Recording(program, str(case.folder), case.image)
            wrong = check_account.differences(
                program, case, check_account.Reached(), machine=recording
            )
            if wrong:
                raise RuntimeError(f"{case.name}: {wrong[0]}")
            yield case, recording.answers


def turned_copy(edit, folder, name):
    """A copy of these modules with an edit made, as a package of another name."""
    file, old, new = edit
    copy = pathlib.Path(folder) / name
    shutil.copytree(HERE, copy, ignore=shutil.ignore_patterns("__pycache__"))
    text = (copy / file).read_text()
    if text.count(old) != 1:
        raise ValueError(f"{file}: {text.count(old)} times {old!r}")
    (copy / file).write_text(text.replace(old, new))


def notice(numbered):
    """Where the turned copy first differs, or None. An error of the copy counts as a difference."""
    number, edit, program = numbered
    name = f"turned{number}"
    with tempfile.TemporaryDirectory() as folder:
        turned_copy(edit, folder, name)
        sys.path.insert(0, folder)
        try:
            if edit[0] in CHECKED_BY:
                return number, fails(name, CHECKED_BY[edit[0]], program)
            return number, differs(name, program)
        finally:
            sys.path.remove(folder)


def differs(name, program):
    """Where the account of a copy differs from the recorded runs, or None."""
    check = importlib.import_module(f"{name}.check_account")
    tape = importlib.import_module(f"{name}.tape")
    for case, answers in RUNS:
        try:
            machine = tape.Tape(answers)
            found = check.differences(program, case, check.Reached(), machine=machine)
        except Exception as error:  # an account that breaks is noticed too
            return f"{case.name}: {type(error).__name__}: {error}"
        if found:
            return f"{case.name}: {found[0]}"
    return None


def fails(name, check_name, program):
    """What a check of a copy reports first, or None."""
    reported = []
    importlib.import_module(f"{name}.cases").set_root(cases.ROOT)
    check = getattr(importlib.import_module(f"{name}.{check_name}"), check_name)
    with tempfile.TemporaryDirectory() as work:
        try:
            wrong = check(program, pathlib.Path(work), show=reported.append)
        except Exception as error:  # a check that breaks has noticed it too
            return f"{type(error).__name__}: {error}"
    return reported[0] if wrong else None


def check_planted(program, show=print):
    """The number of edits that nothing notices."""
    edits = planted_edits.edits()
    with tempfile.TemporaryDirectory() as work:
        RUNS.extend(record(program, pathlib.Path(work)))
        jobs = [(number, edit, program) for number, edit in enumerate(edits)]
        missed = 0
        with multiprocessing.get_context("fork").Pool() as pool:
            for number, where in pool.imap(notice, jobs):
                if where is None:
                    missed += 1
                    file, old, new = edits[number]
                    show(f"not noticed: {file}: {old.strip()!r} to {new.strip()!r}")
    show(f"planted: {len(edits)} rules turned, {missed} not noticed")
    return missed
