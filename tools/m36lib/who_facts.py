"""Who may touch what: each segment of a folder, and what each ring may do with it.

That the folder boots, and what a user may do, the program says (`audit`, `access`). Brackets,
kinds and entry bounds are read as for a recorded run (folder.py), and the rules of access are those
of the account of a step (rights.py), which is held against the machine."""

import subprocess
from dataclasses import dataclass, field

from . import rights
from .folder import FIRST_CATALOG, Folder, FolderNames
from .machine import Refusal

RINGS = range(8)
NOBODY = ("Nobody", "None", "z")
REFUSED = (1, 2, 3, 4, 8)


@dataclass(frozen=True)
class Cell:
    """What one ring may do with a segment: read, write, execute where it is, and call into it.
    `falls_to` is the ring in which a call is executed."""

    read: bool
    write: bool
    execute: bool
    call: bool
    falls_to: int

    def text(self):
        marks = (("r", self.read), ("w", self.write), ("e", self.execute), ("c", self.call))
        return "".join(letter if on else "-" for letter, on in marks)

    def is_empty(self):
        return not (self.read or self.write or self.execute or self.call)


@dataclass
class Row:
    """A segment. `entries` are pairs of a place and a name for a gate, and None where each word may
    be called; `decided` is the term of the access lists that gives the mode to a user."""

    number: int
    directory: str
    names: list
    kind: str
    mode: str
    brackets: tuple
    cells: list
    entries: list = None
    limit: int = 0
    decided: str = None
    by_term: dict = field(default_factory=dict)

    @property
    def name(self):
        return self.names[0]


@dataclass
class Facts:
    """All of a folder. `audit` are the lines of the program's audit, `user` the user whose rights
    these are or None, and `terms` those of the access lists."""

    title: str
    user: str
    audit: list
    rows: list
    terms: list


def ask(program, folder, *words):
    """The lines that the program writes, and its status; raises Refusal where it refuses."""
    done = subprocess.run([program, *words], cwd=folder, capture_output=True)
    if done.returncode in REFUSED:
        raise Refusal(done.returncode, done.stderr.decode("utf-8", "replace"))
    return done.stdout.decode("ascii").splitlines()


def cell(sdw, ring):
    """What a ring may do with a segment at a place that it may use."""
    executes = rights.execute(sdw, ring)[0] is None
    calls = ring > sdw.r2 and rights.call(sdw, ring, ring, False, 0)[0] is None
    return Cell(
        read=rights.read(sdw, ring, False)[0] is None,
        write=rights.write(sdw, ring)[0] is None,
        execute=executes,
        call=calls,
        falls_to=rights.ring_called(sdw, ring),
    )


def with_mode(sdw, mode):
    """A descriptor with the rights that a mode gives."""
    return sdw._replace(read="r" in mode, execute="e" in mode, write="w" in mode)


def modes_of(program, folder, user):
    """What a user may do with each segment: pairs of a mode and the term that decides."""
    found = []
    for line in ask(program, folder, "access", user):
        _, _, mode, term = line.split(" ")
        found.append(("" if mode == "null" else mode, term))
    return found


def terms_of(folder):
    """The terms of the access lists, each once, in the order of the lines."""
    path = folder.path / "acl"
    if not path.is_file():
        return []
    lines = path.read_bytes().decode("ascii", "replace").splitlines()
    return list(dict.fromkeys(line.split(" ")[1] for line in lines if line.startswith("term ")))


def user_of(term, terms):
    """A user whom a term matches, and of the others only those that match all whom it matches."""
    used = {part for other in terms for part in other.split(".")}
    parts = []
    for part, nobody in zip(term.split("."), NOBODY):
        while part == "*" and nobody in used:
            nobody = nobody + "_" if len(nobody) > 1 else chr(ord(nobody) - 1)
        parts.append(nobody if part == "*" else part)
    return ".".join(parts)


def entries_of(names, segment, sdw):
    """The entries of a gate by their names; None for a segment without G."""
    if sdw.no_gate:
        return None
    return [(place, name) for place, name in names.entries(segment.number) if place < sdw.limit]


def audit_lines(program, path, user):
    """The lines of the audit. A folder that boots, but does not start for the user, has a line that
    says so."""
    lines = ask(program, path, "audit")
    if user is None:
        return lines
    ask(program, path, "access", user)
    try:
        return ask(program, path, "audit", "--user", user)
    except Refusal as refusal:
        return [f"it does not start for {user}: {refusal.text.strip()}"]


def facts(program, path, user=None):
    """The facts of a folder; for a user, with the rights that the access lists give to him."""
    audit = audit_lines(program, path, user)
    folder = Folder(path)
    names = FolderNames(program, folder)
    sdws = folder.descriptors()
    given = modes_of(program, path, user) if user else None
    rows = []
    for number, segment in enumerate(folder.boot.segments):
        sdw = sdws[FIRST_CATALOG + number]
        mode, decided = segment.mode, None
        if given:
            own, decided = given[number]
            mode = own + ("p" if sdw.privileged else "")
            sdw = with_mode(sdw, own)
        rows.append(Row(
            number=segment.number,
            directory=segment.directory,
            names=segment.names,
            kind=segment.kind,
            mode=mode or "null",
            brackets=(sdw.r1, sdw.r2, sdw.r3),
            cells=[cell(sdw, ring) for ring in RINGS],
            entries=entries_of(names, segment, sdw),
            limit=sdw.limit,
            decided=decided,
        ))
    terms = [] if user else terms_of(folder)
    for term in terms:
        for row, (mode, _) in zip(rows, modes_of(program, path, user_of(term, terms))):
            row.by_term[term] = mode or "null"
    return Facts(folder.path.resolve().name, user, audit, rows, terms)
