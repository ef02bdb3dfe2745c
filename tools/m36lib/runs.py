"""The pages of runs of the examples, in copies of their folders."""

import shutil
from dataclasses import dataclass

from .cases import prepare
from .open_run import open_run
from .page_html import page_of
from .program import TOP

MOST_STEPS = 100_000


@dataclass(frozen=True)
class ListedRun:
    """A line of the list: the name of the page, the folder of examples/, the file or None, and the
    question of its lesson."""

    name: str
    folder: str
    file: str
    question: str


def listed(path):
    """The runs of a list: the fields of a line are separated by ` | `."""
    rows = [line.split(" | ") for line in path.read_text().splitlines()
            if line and not line.startswith("#")]
    return [ListedRun(name, folder, file.strip() or None, question)
            for name, folder, file, question in rows]


def pages(program, work, runs):
    """The name and the bytes of each page."""
    copies = work / "examples"
    shutil.copytree(TOP / "examples", copies)
    for run in runs:
        folder = copies / run.folder
        prepare(program, folder)
        with open_run(program, folder / run.file if run.file else folder) as recorded:
            yield run.name, page_of(recorded, MOST_STEPS, run.name, run.question).encode("utf-8")
