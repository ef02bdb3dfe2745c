"""Records a run: see record.py for what it yields."""

import pathlib
import re
from functools import cached_property

from .account import word_text
from .compare import (
    console_differences, register_differences, trace_differences, word_differences,
)
from .console import console, is_called
from .disassemble import row_of
from .explain import explain
from .folder import BOOTED_DBR, Folder, FolderNames, NoSources, Sources
from .headers import folder_segments, image_segments
from .image import read_image
from .machine import Machine, seg_line, word_in
from .memory import FlatMemory, LoadedMemory, SeenCore
from .names import Names
from .record import (
    ConsoleTurn, EndTurn, Header, LinkTurn, PageTurn, RegisterChange, Spot, Step, WordSeen,
)
from .references import fault_name
from .registers import registers_of

LINKAGE_SEGMENTS = range(16, 24)
LOOKED_AT = 16
ESCAPED = re.compile(r"\\([0-7]{3})")


class Recorder:
    """A run that is recorded, of a folder that boots or of a bare image. A context manager.

    Raises machine.Refusal where the program refuses the folder or the image. `machine` is one that
    answers in place of the program."""

    def __init__(self, program, folder, image=None, machine=None):
        self.program = str(pathlib.Path(program).resolve())
        self.path = pathlib.Path(folder)
        self.image = image
        self.machine = machine or Machine(self.program, str(self.path), image)
        self.pages = set()
        self.number = 0
        try:
            if image:
                self.open_image()
            else:
                self.open_folder()
            self.registers = self.read_registers()
        except BaseException:
            self.machine.close()
            raise
        self.first = self.registers

    def __enter__(self):
        return self

    def __exit__(self, *_):
        self.machine.close()

    def open_image(self):
        self.read = read_image(self.path / self.image)
        self.dbr = self.read.dbr
        self.memory = self.read.memory()
        self.names = Names()
        self.sources = NoSources()

    def open_folder(self):
        self.read = Folder(self.path)
        self.dbr = BOOTED_DBR
        self.names = FolderNames(self.program, self.read)
        self.sources = Sources(self.program, self.read)
        self.memory = FlatMemory(self.read.descriptors(), self.look_around)

    def look(self, segment, word):
        """The word that the machine has now, or None."""
        (answer,) = self.machine.ask(seg_line(segment, word))
        return word_in(answer)

    def look_around(self, segment, word):
        """The words of a block that the machine has now, by their spots."""
        first = word - word % LOOKED_AT
        spots = [(segment, first + offset) for offset in range(LOOKED_AT)]
        answers = self.machine.ask(*(seg_line(*spot) for spot in spots))
        return {spot: word_in(answer) for spot, answer in zip(spots, answers)}

    def read_registers(self):
        lines, where = self.machine.ask("regs", "where")
        return registers_of(lines, where[0], self.dbr)

    @cached_property
    def header(self):
        """What is known before the first step."""
        sources = self.sources.all()
        first = self.first
        return Header(
            kind="image" if self.image else "folder",
            name=self.image or self.path.resolve().name,
            segments=image_segments(self.read) if self.image else folder_segments(self.read),
            sources={source.file: source.lines for source in sources},
            start=self.spot(first.ring, first.segment, first.word),
            frames=self.read.frames if self.image else self.read.boot.frames,
            notes=[source.problem for source in sources if source.problem],
        )

    def spot(self, ring, segment, word):
        file, line = self.sources.line(segment, word)
        return Spot(ring, segment, word, self.names.word(segment, word), file, line)

    def go_to(self, taken, quick=False):
        """Goes from the start to where the run has taken `taken` steps, and records nothing of
        them.

        Over an image the steps are worked out by the account, since core is not to be seen whole. A
        quick way is there where the audit passes, so that tables stay: core is then as the machine
        shows it. It is only right where no LDBR has been executed."""
        if self.image and quick:
            self.memory = SeenCore(self.memory.size, self.memory.words, self.look)
        elif self.image:
            self.work_out(taken)
        self.machine.go_to(taken, quick)
        if not self.machine.sure:
            self.machine.go_to(0)
            for _ in self.turns(taken):
                pass
        self.number = taken
        self.registers = self.read_registers()

    def work_out(self, taken):
        """Makes this number of steps of an image by the account alone."""
        for _ in range(taken):
            account = explain(self.registers, self.memory, self.names)
            self.memory.commit(account.commits)
            self.registers = account.after
        self.dbr = self.registers.dbr

    # Turns.

    def turns(self, steps=2000):
        """The turns of at most this number of steps, and then the end."""
        for number in range(self.number + 1, self.number + steps + 1):
            ended = yield from self.step(number)
            if ended:
                return
        yield EndTurn(steps, None, f"The recording ends after {steps} steps; the run goes on.")

    def step(self, number):
        """The turns of one step and of what follows it. True where the run has ended."""
        before = self.registers
        account = explain(before, self.memory, self.names)
        asked = [seg_line(word.segment, word.word) for word in account.words]
        lines, regs, where, *contents = self.machine.ask("step", "regs", "where", *asked)
        if lines[0].startswith("end "):
            yield self.end(lines[0])
            return True
        after = registers_of(regs, where[0], account.after.dbr)
        contents = [word_in(content) for content in contents]
        yield from self.page_turns(number, account)
        service = None
        if is_called(account, before, self.memory):
            service = console(before, self.memory, self.names)
        yield self.finish(number, before, account, lines, after, contents, service)
        return (yield from self.services(number, lines[1:], service))

    def finish(self, number, before, account, lines, after, contents, service):
        """The step, by the lines that the machine wrote of it; memory and registers are those
        after it. `service` is the console service that it calls for, or None."""
        settled, written = after, console_written(lines)
        if written is not None:
            settled = after.but(word=before.word)
        differences = trace_differences(account, lines[0])
        differences += console_differences(service, written)
        differences += register_differences(account, settled)
        differences += word_differences(account, contents)
        words = [self.word_seen(*both) for both in zip(account.words, contents)]
        self.memory.commit(account.commits)
        if self.memory.booted:
            self.settle(account, differences)
        self.registers, self.dbr = after, after.dbr
        self.number = number
        return Step(
            number=number,
            at=self.spot(before.ring, before.segment, before.word),
            instruction=account.instruction,
            account=account,
            trace=lines[0],
            before=before,
            after=after,
            registers=list(changes(before, settled)),
            words=words,
            differences=differences,
        )

    def word_seen(self, change, content):
        name = self.names.word(change.segment, change.word)
        after = change.after if content is None else content
        return WordSeen(change.segment, change.word, name, change.before, after)

    def settle(self, account, differences):
        """Words that are kept are dropped where the account was not right; after an LDBR another
        memory is in force."""
        if differences or account.unknown:
            self.memory.forget()
        if has_loaded(account):
            self.memory = LoadedMemory(self.memory.sdws, self.look_around)

    def page_turns(self, number, account):
        if self.image or isinstance(self.memory, LoadedMemory):
            return
        for segment, page in account.pages:
            if (segment, page) not in self.pages:
                self.pages.add((segment, page))
                name = self.names.segment(segment)
                text = f"Page {page} of {name} is referred to for the first time: it is brought in."
                yield PageTurn(number, segment, page, text)

    def services(self, number, lines, service):
        if service and service.refusal:
            yield ConsoleTurn(number, "", service.refusal, None)
        for line in lines:
            if line.startswith("link "):
                self.memory.forget(LINKAGE_SEGMENTS)
                yield self.link_turn(number, line)
            elif line.startswith("console "):
                yield console_turn(number, line)
            else:
                yield self.end(line)
                return True
        return False

    def link_turn(self, number, line):
        _, ring, place, link, *answer = line.split(" ")
        segment, word = (int(part, 8) for part in place.split("|"))
        name = self.names.word(segment, word)
        pair, target, code = (), None, None
        if len(answer) == 2:
            pair = tuple(int(part, 8) for part in answer)
            target = self.names.word(pair[0] >> 18, pair[1] >> 18)
            text = f"The linker answers the link {link} at {name}: it now points to {target}."
        else:
            code = answer[0]
            text = f"The linker refuses the link {link} at {name} with the code {code}."
        return LinkTurn(
            number, int(ring), segment, word, name, link, pair, target, code, text, line
        )

    def end(self, line):
        return EndTurn(int(line.rpartition(" ")[2]), line, end_text(line))


def has_loaded(account):
    """An LDBR has been executed."""
    if account.word is None or account.outcome.kind != "next":
        return False
    row = row_of(account.word)
    return row is not None and row.effect == "Ldbr"


def end_text(line):
    _, how, *rest = line.split(" ")
    steps = int(rest[-1])
    counted = "1 step" if steps == 1 else f"{steps} steps"
    if how == "dis":
        return f"The run ends by DIS after {counted}."
    if how == "fault":
        number, _, violation = rest[0].partition(".")
        how = f"fault {rest[0]}, {fault_name(int(number), violation)}"
    else:
        how = " ".join([how, *rest[:-1]])
    return f"The run ends after {counted}: {how}."


def console_written(lines):
    """What the lines of a step say that the console wrote, or None."""
    for line in lines:
        if line.startswith("console "):
            text = line[len("console ") :]
            return ESCAPED.sub(lambda found: chr(int(found[1], 8)), text)
    return None


def console_turn(number, line):
    written = console_written([line])
    counted = "1 character" if len(written) == 1 else f"{len(written)} characters"
    return ConsoleTurn(number, written, f"The console writes {counted}.", line)


def changes(before, after):
    """The registers that differ, with their values as `regs` writes them."""
    if before.a != after.a:
        yield RegisterChange("a", word_text(before.a), word_text(after.a))
    if before.q != after.q:
        yield RegisterChange("q", word_text(before.q), word_text(after.q))
    if before.x != after.x:
        for number, (old, new) in enumerate(zip(before.x, after.x)):
            if old != new:
                yield RegisterChange(f"x{number}", f"{old:06o}", f"{new:06o}")
    if before.pr != after.pr:
        for number, (old, new) in enumerate(zip(before.pr, after.pr)):
            if old != new:
                yield RegisterChange(f"pr{number}", old.text(), new.text())
    if before.indicators != after.indicators:
        old, new = before.indicators.text(), after.indicators.text()
        yield RegisterChange("indicators", old, new)
    if before.ring != after.ring:
        yield RegisterChange("ring", str(before.ring), str(after.ring))
    if before.segment != after.segment:
        yield RegisterChange("segment", f"{before.segment:05o}", f"{after.segment:05o}")
    if before.word != after.word:
        yield RegisterChange("word", f"{before.word:06o}", f"{after.word:06o}")
    if before.dbr != after.dbr:
        yield RegisterChange("dbr", dbr_text(before.dbr), dbr_text(after.dbr))


def dbr_text(dbr):
    unpaged = "unpaged" if dbr.unpaged else "paged"
    return f"{dbr.address:08o} bound {dbr.bound:05o} {unpaged} stack {dbr.stack:04o}"
