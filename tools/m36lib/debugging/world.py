"""What is known of a folder or a bare image before its run: names, sources and descriptors, and the
memory as the account of a step asks for it."""

import pathlib
import re
import time

from ..explain import explain
from ..fields import dbr_of
from ..folder import BOOTED_DBR, FIRST_LINKAGE, FIRST_STACK, Folder, FolderNames, NoSources, Sources
from ..headers import folder_segments, image_segments
from ..image import read_image
from ..machine import seg_line, word_in
from ..memory import FlatMemory, LoadedMemory, SeenCore
from ..names import Names
from ..stale import changed_at

LOOKED_AT = 16
MOST_WORKED_OUT = 20_000
MOST_SECONDS = 1.0
LABEL = re.compile(r"\s*([A-Za-z][\w.]*):")


class World:
    """The folder or the image of a session."""

    def __init__(self, program, path, image):
        self.program = program
        self.path = pathlib.Path(path)
        self.image = image
        self.labels_of = {}
        if image:
            self.read = read_image(self.path / image)
            self.dbr = self.read.dbr
            self.names = Names()
            self.sources = NoSources()
            self.numbers = {}
            self.worked = None
        else:
            self.read = Folder(self.path)
            self.dbr = BOOTED_DBR
            self.names = FolderNames(program, self.read)
            self.sources = Sources(program, self.read)
            self.numbers = numbers_of(self.read.boot)

    @property
    def name(self):
        return self.image or self.path.resolve().name

    def segments(self):
        """The segments at the start of the run, as record.SegmentHeader."""
        return image_segments(self.read) if self.image else folder_segments(self.read)

    def descriptors(self):
        """The segments at the start of the run: pairs of a number and a descriptor."""
        if self.image:
            return list(self.read.segments())
        return sorted(self.read.descriptors().items())

    def problems(self):
        """A sentence for each object that is not what its source assembles to. Sources are
        assembled for a second; of the other objects the times of the files decide."""
        if self.image:
            return []
        began, found = time.monotonic(), {}
        for segment, file in self.sources.files.items():
            if file not in found:
                in_time = time.monotonic() - began < MOST_SECONDS
                found[file] = self.problem(segment) if in_time else self.problem_by_time(file)
        return [f"{problem}; run `m36 alm {file}`" for file, problem in found.items() if problem]

    def problem(self, segment):
        source = self.sources.of(segment)
        return source.problem if source else None

    def problem_by_time(self, file):
        source, made = changed_at(self.path / f"{file}.alm"), changed_at(self.path / file)
        if source and made and source > made:
            return f"{file}.alm was changed after {file} was assembled"
        return None

    def labels(self, segment):
        """The labels of a segment's source with the words where they are."""
        if segment not in self.labels_of:
            self.labels_of[segment] = dict(self.find_labels(segment))
        return self.labels_of[segment]

    def find_labels(self, segment):
        source = self.sources.of(segment)
        for number, line in enumerate(source.lines if source else (), 1):
            found = LABEL.match(line)
            word = word_of_line(source, number) if found else None
            if word is not None:
                yield found[1], word

    def memory(self, session):
        """The memory at the position of a session, to be used for one step."""
        if not self.image:
            load = session.history.load_at(session.step)
            kind = LoadedMemory if load else FlatMemory
            return kind(self.read.descriptors(), looking_around(session))
        core = self.core_at(session)
        return SeenCore(core.size, core.words, lambda *spot: session.words(*spot)[0])

    def core_at(self, session):
        """Core at the position of a session, as far as it has been worked out."""
        if self.worked is None or self.worked.step > session.step:
            self.worked = WorkedOut(self.read, session.first_registers)
        if session.step - self.worked.step <= MOST_WORKED_OUT:
            self.worked.go_to(session.step)
        return self.worked.memory

    def is_worked_out(self, session):
        """Descriptors and page tables are those of the position, and not of an earlier one."""
        return not self.image or self.worked is None or self.worked.step == session.step


class WorkedOut:
    """Core of a bare image, of which a session shows no more than words of segments: the account of
    each step changes it."""

    def __init__(self, image, registers):
        self.memory = image.memory()
        self.registers = registers
        self.step = 0

    def go_to(self, step):
        while self.step < step:
            account = explain(self.registers, self.memory)
            self.memory.commit(account.commits)
            self.registers = account.after
            self.step += 1


def looking_around(session):
    """Gives the words of a block, for `FlatMemory`."""

    def look(segment, word):
        first = word - word % LOOKED_AT
        words = session.words(segment, first, LOOKED_AT)
        return {(segment, first + offset): found for offset, found in enumerate(words)}

    return look


def numbers_of(boot):
    """The numbers of segments by their names."""
    numbers = {}
    for ring in range(8):
        numbers[f"stack_{ring}"] = FIRST_STACK + ring
        numbers[f"linkage_{ring}"] = FIRST_LINKAGE + ring
    for segment in boot.segments:
        for name in segment.names:
            numbers.setdefault(name, segment.number)
    return numbers


def word_of_line(source, line):
    """The first word of a line of a source, or of the next line that has one; None if none has."""
    found = [(at, word) for word, at in source.places.items() if at >= line]
    return min(found)[1] if found else None


def loaded_dbr(run, final):
    """The descriptor segment base register that an LDBR loads from its final address, by a process
    that is before that step."""
    segment, word = int(final[2:7], 8), int(final[8:], 8)
    first = word - word % 2
    even, odd = run.ask([seg_line(segment, first), seg_line(segment, first + 1)])
    return dbr_of(word_in(even) or 0, word_in(odd) or 0)
