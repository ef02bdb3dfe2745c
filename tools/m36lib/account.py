"""What an account of a step is made of.

An account is computed from the state before the step alone: its registers and the words of memory.
It says what the step asks of memory, which rule answers, what changes, and how the step ends.

Numbers are integers here. `as_json` writes them as the trace does: words with twelve octal digits,
segments with five, words of a segment with six. Rules are section numbers of docs/MANUAL.md."""

from dataclasses import dataclass, field


def word_text(word):
    return f"{word:012o}"


def place_text(segment, word):
    return f"{segment:05o}|{word:06o}"


@dataclass(frozen=True)
class Place:
    """A word of a segment, and the ring in which it is asked for."""

    ring: int
    segment: int
    word: int

    def text(self):
        return f"{self.ring}:{place_text(self.segment, self.word)}"

    def as_json(self):
        return {"ring": self.ring, "segment": f"{self.segment:05o}", "word": f"{self.word:06o}"}


@dataclass(frozen=True)
class Sentence:
    """A sentence of an account, the section of the manual that has its rule, and what it is of:
    `fetch`, `decode`, `chain`, `reference`, `effect` or `end`."""

    text: str
    rule: str
    part: str

    def as_json(self):
        return {"text": self.text, "rule": self.rule, "part": self.part}


@dataclass(frozen=True)
class Candidate:
    """A ring among those of which the greatest counts, and where it comes from."""

    ring: int
    why: str

    def as_json(self):
        return {"ring": self.ring, "why": self.why}


@dataclass(frozen=True)
class Link:
    """A link of the address chain: where the chain points after it.

    kind: `instruction` for the first link, and after it `word` (a plain indirect word), `its`,
    `itp` or `tally`. `read` is the place of the word or pair that was read, `words` what it holds.
    `rings` are the rings of which the greatest is `point.ring`."""

    kind: str
    point: Place
    bit: int
    tag: int
    rings: tuple
    text: str
    rule: str
    read: Place = None
    words: tuple = ()

    def as_json(self):
        return {
            "kind": self.kind,
            "point": self.point.as_json(),
            "bit": self.bit,
            "tag": f"{self.tag:02o}",
            "read": self.read.as_json() if self.read else None,
            "words": [word_text(word) for word in self.words],
            "rings": [candidate.as_json() for candidate in self.rings],
            "text": self.text,
            "rule": self.rule,
        }


@dataclass(frozen=True)
class Reference:
    """A question to the tables and its answer.

    kind: `fetch`, `indirect`, `read`, `write`, `transfer`, `call` or `locate`. `count` words from
    `place` on are asked for. `link` is the number of the link of the chain that it belongs to, from
    0, or None. Where it is refused, `fault` is the number of the fault and `violation` that of an
    access violation. `refused_at` is then the word that is refused."""

    kind: str
    place: Place
    count: int
    question: str
    answer: str
    allowed: bool
    rule: str
    link: int = None
    fault: int = None
    violation: int = None
    refused_at: Place = None

    def as_json(self):
        return {
            "kind": self.kind,
            "place": self.place.as_json(),
            "count": self.count,
            "link": self.link,
            "question": self.question,
            "answer": self.answer,
            "allowed": self.allowed,
            "fault": self.fault,
            "violation": self.violation,
            "refused_at": self.refused_at.as_json() if self.refused_at else None,
            "rule": self.rule,
        }


@dataclass(frozen=True)
class WordChange:
    """A word of a segment that a step writes, with what it holds before and after."""

    segment: int
    word: int
    before: int
    after: int

    def as_json(self):
        return {
            "segment": f"{self.segment:05o}",
            "word": f"{self.word:06o}",
            "before": word_text(self.before),
            "after": word_text(self.after),
        }


@dataclass(frozen=True)
class Outcome:
    """How a step ends: kind `next`, `fault`, `stop` or `unknown`; of a fault its number, that of
    its access violation and its place; of a stop its name (`dis`, `operation`, `tag`)."""

    kind: str
    text: str
    rule: str
    number: int = None
    violation: int = None
    place: Place = None
    stop: str = None

    def trace_text(self):
        """The outcome as the last field of a trace line has it."""
        if self.kind in ("next", "unknown"):
            return self.kind
        if self.kind == "stop":
            return "dis" if self.stop == "dis" else f"stop {self.stop}"
        if self.violation is None:
            return f"fault {self.number}"
        return f"fault {self.number}.{self.violation}"

    def as_json(self):
        return {
            "kind": self.kind,
            "trace": self.trace_text(),
            "number": self.number,
            "violation": self.violation,
            "place": self.place.as_json() if self.place else None,
            "text": self.text,
            "rule": self.rule,
        }


@dataclass
class Account:
    """The account of one step.

    `final` is the end of the address chain, `direct` a direct operand; both None where no address
    was formed. `after` are the registers after the step, `words` those that it writes, `commits`
    the same by their spots in memory, and `pages` the segment and page of each page that it refers
    to.
    `unknown` says why the account is not sure of its answer, and is None where it is."""

    at: Place
    word: int = None
    instruction: str = None
    chain: list = field(default_factory=list)
    references: list = field(default_factory=list)
    final: Place = None
    bit: int = 0
    direct: int = None
    sentences: list = field(default_factory=list)
    words: list = field(default_factory=list)
    commits: list = field(default_factory=list)
    pages: list = field(default_factory=list)
    after: object = None
    outcome: Outcome = None
    unknown: str = None

    def say(self, text, rule, part):
        self.sentences.append(Sentence(text, rule, part))

    def final_text(self):
        """The final address as the fifth field of a trace line has it."""
        if self.direct is not None:
            return "=" + word_text(self.direct)
        return self.final.text() if self.final else "-"

    def as_json(self):
        return {
            "chain": [link.as_json() for link in self.chain],
            "references": [reference.as_json() for reference in self.references],
            "final": self.final.as_json() if self.final else None,
            "direct": word_text(self.direct) if self.direct is not None else None,
            "outcome": self.outcome.as_json(),
            "sentences": [sentence.as_json() for sentence in self.sentences],
            "unknown": self.unknown,
        }
