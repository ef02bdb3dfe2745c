"""What drawn cases are to reach, and what they have reached.

A step reaches features: texts such as `instruction lda`, `tag 20` or `20.3 read`. `IMAGE_GOALS` and
`FOLDER_GOALS` are the features that enough cases of a kind must reach together."""

import re
from collections import Counter

from .address import MOST_INDIRECT_WORDS
from .disassemble import row_of
from .fields import tag_of
from .table import TABLE

REASONS = (
    (re.compile(r"its descriptor"), "descriptor"),
    (re.compile(r"the page table word of page \d+ of the descriptor segment"), "descriptor page"),
    (re.compile(r"the page table word of its page"), "page"),
    (re.compile(r"its place"), "place"),
    (re.compile(r"segment [0-7]+ is past"), "segment"),
    (re.compile(r"word [0-7]+ is past"), "word"),
)
ILLEGAL = (
    (re.compile(r"privileged\? No, illegal procedure: P is off"), "P off"),
    (re.compile(r"privileged\? No, illegal procedure: ring"), "ring"),
    (re.compile(r"takes no direct operand"), "direct operand"),
    (re.compile(r"by a direct operand"), "direct indirect"),
    (re.compile(r"of a pair is not in"), "pair"),
)
STORE, DIRECTED, ACCESS, ILLEGAL_PROCEDURE = 1, range(16, 20), 20, 10
OUT_OF_BOUNDS = 15

# What no case can reach, and why.
OUT_OF_REACH = {
    "access violation 11": "no rule of docs/MANUAL.md, section 6, refuses by it",
    "access violation 13": "no rule of docs/MANUAL.md, section 6, refuses by it",
    "access violation 14": "no rule of docs/MANUAL.md, section 6, refuses by it",
    "a page or a place of a target": "a target is examined up to its bound, and no page is asked",
    "code L6 at the start": "a folder whose first section does not fit is refused with U3",
}


def reason(table, text):
    """The name of the first reason of a table that is in a text, or `other`."""
    return next((name for pattern, name in table if pattern.search(text)), "other")


def end_feature(account):
    """How a step ended, with what was refused."""
    outcome = account.outcome
    if outcome.kind != "fault":
        return outcome.trace_text()
    number = outcome.number
    if number == ILLEGAL_PROCEDURE:
        return f"10 {reason(ILLEGAL, outcome.text)}"
    refused = [reference for reference in account.references if not reference.allowed]
    if not refused:
        return f"{number}"
    kind, why = refused[-1].kind, reason(REASONS, refused[-1].answer)
    if number in DIRECTED:
        return f"{number} {why}"
    if number == STORE:
        return f"1 {why} {kind}"
    if outcome.violation == OUT_OF_BOUNDS:
        return f"20.15 {why} {kind}"
    return f"20.{outcome.violation} {kind}"


def fetch_feature(refusal):
    """How a fetch is refused that comes after a step."""
    number, why = refusal.number, reason(REASONS, refusal.why)
    if number in DIRECTED:
        return f"{number} {why}"
    if number == STORE:
        return f"1 {why} fetch"
    if refusal.violation == OUT_OF_BOUNDS:
        return f"20.15 {why} fetch"
    return f"20.{refusal.violation} fetch"


def features(account):
    """What one step reaches."""
    found = [f"ring {account.at.ring}"]
    if account.outcome.kind == "next":
        found += [f"instruction {row_of(account.word).name}"]
    elif account.outcome.kind != "unknown":
        found.append(end_feature(account))
    row = row_of(account.word) if account.word is not None else None
    if row and row.operand == "N":
        found.append(f"instruction {row.name}")
    elif account.chain:
        found.append(f"tag {tag_of(account.word):02o}")
        found += [f"chain {link.kind}" for link in account.chain[1:]]
        if account.final and len(account.chain) > MOST_INDIRECT_WORDS:
            found.append("chain of 16")
        found += [f"chain tag {link.tag:02o}" for link in account.chain[1:] if link.kind != "tally"]
    return found


def products(texts, kinds):
    return [f"{text} {kind}" for text in texts for kind in kinds]


READING = ("indirect", "read")
WORDS = ("fetch", *READING, "write", "locate")
ALL = (*WORDS, "transfer", "call")
VIOLATIONS = [
    *products(["20.0", "20.15 segment", "20.15 word"], ALL),
    *products(["20.1"], ("fetch", "transfer")),
    *products(["20.2"], ("fetch", "transfer", "call")),
    *products(["20.3", "20.4"], READING),
    *products(["20.5", "20.6"], ("write",)),
    *products(["20.7", "20.8", "20.9", "20.10"], ("call",)),
    "20.12 transfer",
]
STORES = [
    *products(["1 descriptor", "1 descriptor page"], ALL),
    *products(["1 page", "1 place"], WORDS),
]
DIRECTED_FAULTS = products(map(str, DIRECTED), ("descriptor", "descriptor page", "page"))
ILLEGALS = products(["10"], [name for _, name in ILLEGAL])
OTHERS = ["2", "3", "5", "6", "7", "13", "14", "24", "25", "dis", "stop operation", "stop tag"]
INSTRUCTIONS = [f"instruction {row.name}" for row in TABLE.values()]
TAGS = [f"tag {tag:02o}" for tag in range(64)]
CHAINS = ["chain word", "chain its", "chain itp", "chain tally", "chain of 16"]
CHAIN_TAGS = [f"chain tag {tag:02o}" for tag in range(64)]
RINGS = [f"ring {ring}" for ring in range(8)]
IMAGE_ENDS = [*VIOLATIONS, *STORES, *DIRECTED_FAULTS, *ILLEGALS, *OTHERS]
IMAGE_GOALS = [*INSTRUCTIONS, *TAGS, *CHAINS, *CHAIN_TAGS, *RINGS, *IMAGE_ENDS]
LINKS = ["link $entry", "link $", "link *$", "link *$entry"]
FOLDER_GOALS = [
    *RINGS, *LINKS, *(f"code L{number}" for number in range(1, 7)),
    "console", "console refused", "end console", "pages", "pages that give way", "2", "17 page",
    "24", "20.3 read", "20.5 write",
    "20.1 transfer", "20.2 call", "20.7 call", "20.8 call", "20.9 call", "20.10 call", "dis",
]
GOALS = {"image": IMAGE_GOALS, "folder": FOLDER_GOALS}


def service_feature(line):
    """What a line of a link service, of a console service or of an end reaches."""
    kind, *rest = line.split(" ")
    if kind == "link":
        if len(rest) == 5:
            before, _, entry = rest[2].partition("$")
            return f"link {'*' if before.startswith('*') else ''}${'entry' if entry else ''}"
        return f"code {rest[-1]}"
    if kind == "end":
        return f"end {rest[0]}"
    return kind


class Reached:
    """Counts the features that steps reach. `add` takes a recorded step."""

    def __init__(self):
        self.counts = Counter()
        self.steps = 0
        self.cases = 0
        self.pages = set()
        self.last = None

    def add(self, step):
        account = step.account
        self.steps += 1
        self.counts.update(set(features(account)))
        self.pages |= set(account.pages)
        self.last = account.outcome.trace_text()
        if account.unknown:
            self.counts["not known"] += 1

    def end_case(self, lines, frames=None):
        """Counts the lines of links, of the console and of the end of a run, and its pages."""
        self.cases += 1
        self.counts.update(service_feature(line) for line in lines)
        if frames:
            self.counts["pages"] += len(self.pages)
            self.counts["pages that give way"] += len(self.pages) > frames
        if self.last == "fault 2" and lines[-1].startswith("end fault 20."):
            self.counts["console refused"] += 1
        self.pages = set()

    def take(self, other):
        self.counts += other.counts
        self.steps += other.steps
        self.cases += other.cases

    def missing(self, kind):
        return [goal for goal in GOALS[kind] if not self.counts[goal]]

    def text(self, kind):
        """What was reached, in a line."""
        goals = len(GOALS[kind])
        names = sum(self.counts[text] > 0 for text in INSTRUCTIONS)
        tags = sum(self.counts[text] > 0 for text in TAGS)
        return (
            f"{self.cases} {kind}s, {self.steps} steps: {names} of {len(INSTRUCTIONS)} "
            f"instructions, {tags} of {len(TAGS)} tags, "
            f"{goals - len(self.missing(kind))} of {goals} features"
        )
