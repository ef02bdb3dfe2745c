"""The runs whose pages are checked, with what is expected of them by the program's own output."""

import pathlib
import re
import shutil
import subprocess
import sys
from dataclasses import dataclass, field

from .cases import prepare
from .program import TOP

FIRST_SEGMENT = 0o100
LISTED = re.compile(r"text ([0-7]+) [0-7]{12} (\d+)")
STEP = re.compile(r"(?:\d )?\d+ [0-7] [0-7]{5}\|[0-7]{6} ")


@dataclass
class PageCase:
    """A run: its name, its folder, its file or None, the command whose trace it is, and, once it is
    made, its page. `lines` are those of the trace, without those of the audit."""

    name: str
    folder: pathlib.Path
    file: str = None
    command: str = "trace"
    options: tuple = ()
    page: pathlib.Path = None
    lines: list = field(default_factory=list)
    places: dict = field(default_factory=dict)

    @property
    def what(self):
        return self.folder / self.file if self.file else self.folder

    def steps(self):
        return [line for line in self.lines if STEP.match(line)]


EXAMPLE_CASES = {
    "servant": ("servant", None, "trace", ()),
    "hello": ("hello", None, "trace", ()),
    "pages": ("pages", None, "trace", ()),
    "search": ("search", None, "trace", ()),
    "borrowed": ("borrowed", None, "trace", ()),
    "open": ("direct/open", None, "trace", ()),
    "segments": ("segments", "segments", "bare", ()),
    "laid": ("laid", "laid", "bare", ("--unaudited",)),
    "lock": ("lock", "split", "procs", ()),
}


def run_look(program, words, folder, stdout=subprocess.PIPE):
    """Runs tools/look, and returns what came of it."""
    return subprocess.run([sys.executable, TOP / "tools/look", *words], cwd=folder, stdout=stdout,
                          stderr=subprocess.PIPE,
                          env={"M36_PROGRAM": program, "PATH": "/usr/bin:/bin"})


def made(program, case, work, words=()):
    """The case with its page, its trace, and the lines of its sources."""
    case.page = work / f"{case.name}.html"
    done = run_look(program, [case.what, "-o", case.page, *words], work)
    if done.returncode:
        raise RuntimeError(f"{case.name}: tools/look: {done.stderr.decode()}")
    command = [program, case.command, *([case.file] if case.file else []), *case.options]
    traced = subprocess.run(command, cwd=case.folder, capture_output=True).stdout.decode("ascii")
    case.lines = [line for line in traced.splitlines() if not line.startswith("audit ")]
    case.places = {} if case.file else source_places(program, case.folder)
    return case


def source_places(program, folder):
    """File and line of each word of the sources, by segment and word."""
    found = {}
    boot = (folder / "boot").read_text().splitlines()
    segments = [line.split(" ") for line in boot if line.startswith("segment ")]
    for number, words in enumerate(segments, FIRST_SEGMENT):
        source = folder / f"{words[3]}.alm"
        if words[4] == "data" or not source.exists():
            continue
        listing = subprocess.run([program, "alm", words[3]], cwd=folder, capture_output=True)
        for line in listing.stdout.decode("ascii").splitlines():
            listed = LISTED.fullmatch(line)
            if listed:
                place = f"{number:05o}|{int(listed[1], 8):06o}"
                found[place] = f"{source.name} {listed[2]}"
    return found


class Examples:
    """The cases of the examples by their names. A page is made when it is first asked for."""

    def __init__(self, program, work):
        self.program = program
        self.work = work
        self.copies = work / "examples"
        self.made = {}
        shutil.copytree(TOP / "examples", self.copies)

    def __getitem__(self, name):
        if name not in self.made:
            folder, file, command, options = EXAMPLE_CASES[name]
            prepare(self.program, self.copies / folder)
            case = PageCase(name, self.copies / folder, file, command, options)
            self.made[name] = made(self.program, case, self.work)
        return self.made[name]


def folder_of(program, work, name, sources, boot, data=()):
    """A folder with these sources, assembled, and this boot text."""
    folder = work / name
    folder.mkdir()
    for file, text in sources.items():
        (folder / f"{file}.alm").write_bytes(text.encode("utf-8", "surrogateescape"))
        done = subprocess.run([program, "alm", file], cwd=folder, capture_output=True)
        if done.returncode:
            raise RuntimeError(f"{name}: {file}.alm: {done.stderr.decode()}")
    for file, content in data:
        (folder / file).write_bytes(content)
    (folder / "boot").write_text(boot)
    return folder
