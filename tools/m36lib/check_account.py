"""Holds the account against the machine, step by step."""

from collections import Counter

from .cases import VIEW
from .disassemble import row_of
from .machine import seg_line, word_in
from .recorder import Recorder
from .table import TABLE

MOST_SHOWN = 4
FAULTS = (1, 2, 3, 5, 6, 7, 10, 13, 14, 16, 17, 18, 19, 24, 25)
VIOLATIONS = (0, 1, 2, 3, 4, 5, 6, 7, 8, 9, 10, 12, 15)
STOPS = ("next", "dis", "stop operation", "stop tag")
ENDS = (
    *STOPS,
    *(f"fault {number}" for number in FAULTS),
    *(f"fault 20.{number}" for number in VIOLATIONS),
)


class Reached:
    """What runs reached: instructions, tags, and how steps ended."""

    def __init__(self):
        self.steps = 0
        self.unknown = 0
        self.ends = Counter()
        self.instructions = Counter()
        self.tags = Counter()

    def add(self, step):
        account = step.account
        self.steps += 1
        self.unknown += bool(account.unknown)
        self.ends[account.outcome.trace_text()] += 1
        row = row_of(account.word) if account.word is not None else None
        if row is not None:
            self.instructions[row.name] += 1
            self.tags.update(link.tag for link in account.chain if link.kind != "tally")

    def missing(self):
        """What was not reached, in words."""
        names = {row.name for row in TABLE.values()}
        found = [f"instruction {name}" for name in sorted(names - self.instructions.keys())]
        found += [f"tag {tag:02o}" for tag in sorted(set(range(64)) - self.tags.keys())]
        return found + [f"end {end}" for end in ENDS if end not in self.ends]

    def text(self):
        return (
            f"{self.steps} steps, {len(self.instructions)} of {len(TABLE)} instructions, "
            f"{len(self.tags)} of 64 tags, {len(self.ends)} of {len(ENDS)} ends of a step, "
            f"{self.unknown} steps not known"
        )


def core_differences(recorder, size):
    """Where core after a run is not as the account has it, seen through a segment over all of
    it."""
    lines = [seg_line(VIEW, word) for word in range(size)]
    found = []
    for word, answer in enumerate(recorder.machine.ask(*lines)):
        content, expected = word_in(answer), recorder.memory.core(word)
        if content is not None and content != expected:
            found.append(f"core word {word:08o} {content:012o}, not {expected:012o}")
    return found


def flat_differences(recorder):
    """Where words that the account has kept are not those of the machine after a run."""
    kept = sorted(recorder.memory.words.items())
    answers = recorder.machine.ask(*(seg_line(*spot) for spot, _ in kept))
    found = []
    for ((segment, word), expected), answer in zip(kept, answers):
        content = word_in(answer)
        if content is not None and content != expected:
            found.append(f"word {segment:05o}|{word:06o} {content:012o}, not {expected:012o}")
    return found


def differences(program, case, reached, machine=None):
    """What differs in a run, as lines of text."""
    found = []
    with Recorder(program, case.folder, case.image, machine=machine) as recorder:
        for turn in recorder.turns(case.steps):
            if not hasattr(turn, "account"):
                continue
            reached.add(turn)
            if turn.differences:
                found.append(f"{turn.trace}: {'; '.join(turn.differences)}")
        if case.core:
            found += core_differences(recorder, case.core)
        elif case.image is None:
            found += flat_differences(recorder)
    return found


def check_cases(program, work, kinds, all_reached=False, show=print):
    """Holds the account against the machine in all runs. The number of runs that differ, and with
    `all_reached` of what none of them reached."""
    reached, wrong, runs = Reached(), 0, 0
    for kind in kinds:
        for case in kind(program, work):
            runs += 1
            found = differences(program, case, reached)
            wrong += bool(found)
            for line in found[:MOST_SHOWN]:
                show(f"{case.name}: {line}")
    missing = reached.missing() if all_reached else []
    for what in missing:
        show(f"account: no step of {what}")
    show(f"account: {runs} runs, {reached.text()}, {wrong} runs wrong")
    return wrong + len(missing)
