"""Plants faults in copies of the page, and sees whether its checks notice each.

page_faults.txt has them: a file of this folder and the checks that are to notice it, lines with `-`
before them, a text that the file has once, and lines with `+` before them, what is put in its
place."""

import pathlib
import shutil
import subprocess
import sys
import tempfile

from .browser import find_browser
from .planted_edits import text_of

HERE = pathlib.Path(__file__).resolve().parent
ROOT = HERE.parents[1]


def faults():
    for block in (HERE / "page_faults.txt").read_text().split("\n\n"):
        head, *lines = block.splitlines()
        file, checks = head.split(" ", 1)
        yield file, checks, text_of(lines, "-"), text_of(lines, "+")


def plant(fault, folder):
    """A copy of the tools with a fault."""
    file, _, old, new = fault
    shutil.copytree(ROOT / "tools", folder / "tools", ignore=shutil.ignore_patterns("__pycache__"))
    for name in ("examples", "docs"):
        (folder / name).symlink_to(ROOT / name)
    path = folder / "tools/m36lib" / file
    text = path.read_text()
    if text.count(old) != 1:
        raise ValueError(f"{file}: {text.count(old)} times {old!r}")
    path.write_text(text.replace(old, new))


def noticed(program, fault):
    """The line by which the checks of a copy notice a fault, or None."""
    with tempfile.TemporaryDirectory() as folder:
        plant(fault, pathlib.Path(folder))
        check = pathlib.Path(folder) / "tools/page-check"
        done = subprocess.run([sys.executable, check, "--only", fault[1], program],
                              capture_output=True)
    if done.returncode == 0:
        return None
    return (done.stdout or done.stderr).decode("utf-8", "replace").splitlines()[0]


def check_planted(program, show=print):
    """The number of faults that nothing notices."""
    if find_browser() is None:
        show("skipped: planted faults of the page: there is no chromium here")
        return 0
    missed = 0
    planted = list(faults())
    for fault in planted:
        by = noticed(program, fault)
        missed += by is None
        file, _, old, _ = fault
        show(f"{file}: {old.strip()[:50]!r}: {'NOT NOTICED' if by is None else by[:120]}")
    show(f"planted: {len(planted)} faults, {missed} not noticed")
    return missed
