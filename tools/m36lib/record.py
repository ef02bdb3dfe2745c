"""A run as a list of turns: steps with their accounts, and what the system does between them.

    with Recorder(program, folder) as recorder:          # a folder that boots
        ...
    with Recorder(program, folder, image="least") as recorder:     # a bare image
        header = recorder.header
        for turn in recorder.turns(steps=2000):
            ...

`turns` yields Step, LinkTurn, ConsoleTurn, PageTurn and at last one EndTurn. Each has `as_json`."""

from dataclasses import dataclass, field

from .account import Account, word_text
from .registers import Registers

FORMAT = 1


@dataclass(frozen=True)
class Spot:
    """Where an instruction is: ring of execution, segment and word, as `main$start+1` or
    `main|000005`, and the line of a source, where there is one."""

    ring: int
    segment: int
    word: int
    name: str
    file: str = None
    line: int = None

    def as_json(self):
        return {
            "ring": self.ring,
            "segment": f"{self.segment:05o}",
            "word": f"{self.word:06o}",
            "name": self.name,
            "file": self.file,
            "line": self.line,
        }


@dataclass(frozen=True)
class RegisterChange:
    """A register, or an indicator, that a step changed. `register` is `a`, `q`, `x0` to `x7`, `pr0`
    to `pr7`, `indicators`, `ring`, `segment`, `word` or `dbr`; the values as `regs` writes them."""

    register: str
    before: str
    after: str

    def as_json(self):
        return {"register": self.register, "before": self.before, "after": self.after}


@dataclass(frozen=True)
class WordSeen:
    """A word that a step wrote, with its content before and after by the machine."""

    segment: int
    word: int
    name: str
    before: int
    after: int

    def as_json(self):
        return {
            "segment": f"{self.segment:05o}",
            "word": f"{self.word:06o}",
            "name": self.name,
            "before": word_text(self.before) if self.before is not None else None,
            "after": word_text(self.after) if self.after is not None else None,
        }


@dataclass
class Step:
    """One step of the machine."""

    number: int
    at: Spot
    instruction: str
    account: Account
    trace: str
    before: Registers
    after: Registers
    registers: list = field(default_factory=list)
    words: list = field(default_factory=list)
    differences: list = field(default_factory=list)

    def as_json(self):
        return {
            "turn": "step",
            "number": self.number,
            "at": self.at.as_json(),
            "instruction": self.instruction,
            "word": word_text(self.account.word) if self.account.word is not None else None,
            "trace": self.trace,
            "registers": self.after.as_json(),
            "changed": [change.as_json() for change in self.registers],
            "words": [word.as_json() for word in self.words],
            "account": self.account.as_json(),
            "differences": self.differences,
        }


@dataclass(frozen=True)
class LinkTurn:
    """The linker answers a link, or refuses it with a code. `pair` are the two words that replace
    the link; `target` is the word that they point to."""

    after_step: int
    ring: int
    segment: int
    word: int
    name: str
    link: str
    pair: tuple
    target: str
    code: str
    text: str
    line: str

    def as_json(self):
        return {
            "turn": "link",
            "after_step": self.after_step,
            "ring": self.ring,
            "segment": f"{self.segment:05o}",
            "word": f"{self.word:06o}",
            "name": self.name,
            "link": self.link,
            "pair": [word_text(word) for word in self.pair],
            "target": self.target,
            "code": self.code,
            "text": self.text,
            "line": self.line,
        }


@dataclass(frozen=True)
class ConsoleTurn:
    """The console writes characters, or refuses to: then `line` is None and `text` says why.
    `written` has each byte as the character of that number."""

    after_step: int
    written: str
    text: str
    line: str

    def as_json(self):
        return {
            "turn": "console",
            "after_step": self.after_step,
            "written": self.written,
            "text": self.text,
            "line": self.line,
        }


@dataclass(frozen=True)
class PageTurn:
    """The first reference of a booted run to a page, which was in no frame until then. A session
    does not report page services: this follows from the rules."""

    before_step: int
    segment: int
    page: int
    text: str

    def as_json(self):
        return {
            "turn": "page",
            "before_step": self.before_step,
            "segment": f"{self.segment:05o}",
            "page": self.page,
            "text": self.text,
        }


@dataclass(frozen=True)
class EndTurn:
    """The end of the run, or of the recording: `line` is the end line, or None where the recording
    met its limit of steps before the run ended."""

    steps: int
    line: str
    text: str

    def as_json(self):
        return {"turn": "end", "steps": self.steps, "line": self.line, "text": self.text}


@dataclass
class SegmentHeader:
    """A segment of the run, as the tables have it at the start."""

    number: int
    name: str
    names: list
    file: str
    kind: str
    r1: int
    r2: int
    r3: int
    read: bool
    execute: bool
    write: bool
    privileged: bool
    gate: bool
    entries: int
    words: int
    paged: bool

    def as_json(self):
        return {**vars(self), "number": f"{self.number:05o}"}


@dataclass
class Header:
    """What is known before the first step. `sources` has the lines of each source by its file;
    `notes` sentences that a reader should see (a stale object, say)."""

    kind: str
    name: str
    segments: list
    sources: dict
    start: Spot
    frames: int = None
    notes: list = field(default_factory=list)

    def as_json(self):
        return {
            "turn": "start",
            "format": FORMAT,
            "kind": self.kind,
            "name": self.name,
            "frames": self.frames,
            "start": self.start.as_json(),
            "segments": [segment.as_json() for segment in self.segments],
            "sources": self.sources,
            "notes": self.notes,
        }
