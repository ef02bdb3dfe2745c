"""What the program refuses in a text, with its place there.

The program is asked in a temporary folder, so that no file of the user is written, and about the
text as the editor has it. Of a boot text that folder has the files of the segments too: what the
sources beside it assemble to, and otherwise the objects and data as they are."""

import functools
import pathlib
import re
import subprocess
import tempfile
from typing import NamedTuple

from .. import audits, boot_refusals, refusals
from ..folder import MOST_SECONDS, assembled_text
from ..line_forms import FILE, column_of
from ..texts import Text, read_bytes
from ..unreadable import segment_files

ERROR, WARNING = 1, 2
END_OF_WORD = re.compile(rb"[\s\"]")
FIRST_SEGMENT = 64


class Problem(NamedTuple):
    """A refusal or a condition that does not hold: its code, a sentence, and the bytes of the text
    that it is about."""

    code: str
    sentence: str
    start: int
    end: int
    severity: int = ERROR


class NoAnswer(Exception):
    """The program did not answer as it should."""


def run(program, words, folder):
    """Runs the program in a folder. Its status, standard output and standard error, as texts."""
    try:
        done = subprocess.run([program, *words], cwd=folder, capture_output=True,
                              stdin=subprocess.DEVNULL, timeout=MOST_SECONDS)
    except (OSError, subprocess.TimeoutExpired) as why:
        raise NoAnswer(f"m36 {' '.join(words)}: {why}") from None
    return done.returncode, done.stdout.decode("ascii", "replace"), done.stderr.decode(
        "ascii", "replace")


def refusal_of(lines):
    """The refusal in the lines of standard error: file, code, line and column; or None."""
    for line in lines:
        match = refusals.REFUSAL.fullmatch(line)
        if match:
            return match[1], match[2], int(match[3]), int(match[4])
    return None


def end_of_word(data, start):
    """Where the word ends that begins at a place: the next blank, or the end of the line."""
    found = END_OF_WORD.search(data, start)
    return found.start() if found else len(data)


def problem_at(text, code, sentence, line, column, severity=ERROR):
    """A problem at a word of the text, or at a whole line where the column is 0."""
    start = text.place_of(line, max(column, 1))
    end = end_of_word(text.data, start)
    if not column:
        end = text.place_of(line, len(text.data) + 1)
    return Problem(code, sentence, start, max(end, start), severity)


# Sources.


@functools.lru_cache(maxsize=256)
def object_of(program, data):
    """The object that a source assembles to, and the lines of the program."""
    return assembled_text(program, "source", data)


def check_source(program, text):
    """The problems of a source: the one refusal of `alm`, or none."""
    try:
        made, said = object_of(program, text.data)
    except (OSError, subprocess.TimeoutExpired) as why:
        raise NoAnswer(f"m36 alm: {why}") from None
    if made is not None:
        return []
    found = refusal_of(said)
    if not found or found[1][0] != "E":
        raise NoAnswer(f"m36 alm: {said[0] if said else 'it failed and gave no reason'}")
    _, code, line, column = found
    finding = refusals.finding_of("", code, line, column, Text(text.data), ())
    sentence = refusals.sentence_of(code, finding)
    return [problem_at(text, code, sentence, line, column)]


# Boot texts.


class BootCheck:
    """The check of one boot text."""

    def __init__(self, program, workspace, text, folder):
        self.program = program
        self.workspace = workspace
        self.text = text
        self.folder = folder
        self.lines = Text(text.data)
        self.begun = set()

    def problems(self):
        """The one refusal; or where the folder boots, a warning for each condition of the audit
        that does not hold."""
        with tempfile.TemporaryDirectory(prefix="m36-lsp.") as room:
            self.fill(pathlib.Path(room))
            status, output, errors = run(self.program, ["audit"], room)
        found = refusal_of(errors.splitlines())
        if found:
            return [self.refused(*found)]
        if status not in (0, 5):
            raise NoAnswer(f"m36 audit: {errors.strip() or f'status {status}'}")
        return [self.broken(*match.groups()) for match in map(audits.LINE.fullmatch,
                                                              output.splitlines()) if match]

    def fill(self, room):
        """Writes the boot text and the files of its segments."""
        (room / "boot").write_bytes(self.text.data)
        for file in dict.fromkeys(segment_files(self.lines)):
            if FILE.fits(file) and file != "boot":
                self.put(room, file)

    def put(self, room, file):
        """Writes the file of a segment: assembled, bound, or as it is in the folder. Each file is
        put once, so bind files that name each other come to an end."""
        if file in self.begun:
            return
        self.begun.add(file)
        if self.assemble(room, file):
            return
        bind = self.workspace.text_at(self.folder / f"{file}.bind")
        if bind and self.bind(room, file, bind):
            return
        data = read_bytes(str(self.folder / file))
        if data is not None:
            (room / file).write_bytes(data)

    def assemble(self, room, file):
        """Writes what the source of a file assembles to. False where there is none."""
        source = self.workspace.text_at(self.folder / f"{file}.alm")
        made = object_of(self.program, source.data)[0] if source else None
        if made is not None:
            (room / file).write_bytes(made)
        return made is not None

    def bind(self, room, file, bind):
        """Binds a file of its components. False where it can't be bound."""
        for line in Text(bind.data).lines:
            words = line.split(" ")
            if words[0] == "object" and len(words) == 2 and FILE.fits(words[1]):
                if words[1] not in (file, "boot"):
                    self.put(room, words[1])
        (room / f"{file}.bind").write_bytes(bind.data)
        return run(self.program, ["bind", file], room)[0] == 0

    def refused(self, name, code, number, column):
        """The problem of a refusal: in the boot text, or at the line of the segment whose file is
        refused."""
        if name != "boot":
            return self.file_refused(name, code)
        finding = refusals.finding_of("boot", code, number, column, self.lines, ())
        sentence = refusals.sentence_of(code, finding)
        if code == "D3" and (later := boot_refusals.later_malformed(self.lines, number)):
            sentence += f" Line {later[0]} does not count, since it does not have its form: "
            sentence += later[1].sentence
        line = self.line_of(code, number)
        return problem_at(self.text, code, sentence, line, finding.column if finding else column)

    def line_of(self, code, number):
        """The line that a refusal of the boot text is about."""
        if code == "U1":
            return 1
        if code in ("U2", "U4"):
            return self.line_of_segment(number)
        return len(self.lines.lines) if code == "U3" else number

    def line_of_segment(self, number):
        """The line of a segment by its number."""
        lines = boot_refusals.segment_lines(self.lines)
        index = number - FIRST_SEGMENT
        return lines[index] if 0 <= index < len(lines) else 1

    def file_refused(self, name, code):
        """The problem of a file that is refused: the word of its first segment line."""
        entry = refusals.sentence_of(code, None)
        source = self.folder / f"{name}.alm"
        advice = f"; {name}.alm does not assemble" if self.workspace.text_at(source) else ""
        for number in boot_refusals.segment_lines(self.lines):
            words = self.lines.line(number).split(" ")
            if len(words) > 3 and words[3] == name:
                sentence = f'{entry}: "{name}"{advice}'
                return problem_at(self.text, code, sentence, number, column_of(words, 3))
        return problem_at(self.text, code, f'{entry}: "{name}"{advice}', 1, 0)

    def broken(self, process, code, place):
        """The problem of a condition that does not hold, at its segment where it names one."""
        sentence = audits.sentence_of(process, code, place or "")
        line = 1
        if place and len(place) == 5:
            line = self.line_of_segment(int(place, 8))
        return problem_at(self.text, code, sentence, line, 0, WARNING)


def check_boot(program, workspace, document):
    """The problems of a boot text."""
    try:
        return BootCheck(program, workspace, document, document.path.parent).problems()
    except (OSError, subprocess.TimeoutExpired) as why:
        raise NoAnswer(f"m36 audit: {why}") from None


def check(program, workspace, document):
    """The problems of a document."""
    if document.is_source():
        return check_source(program, document)
    return check_boot(program, workspace, document) if document.is_boot() else []


def is_about(document, changed):
    """Whether the problems of a document depend on another one that has changed."""
    if document is changed:
        return True
    if not document.is_boot() or not changed.path:
        return False
    return document.path.parent == changed.path.parent
