"""Checks of the debugger's library, in the examples: each move, breakpoint and watchpoint against
what follows from the answers of the program alone, step by step."""

import random

from . import cases
from .check_debug36 import found_by
from .check_machine import whole_run
from .debugging import Session
from .machine import Machine, seg_line
from .made_images import PAIR, image, its, op, sdw

MOST_STEPS = 150
MOST_PLACES = 6
MOST_WORDS = 4
MOST_WRONG = 10
SMALL_INPUT = 300
REGISTERS = {"a": (0, 1), "q": (0, 3), "x1": (1, 2), "ind": (0, 5)}


class Facts:
    """A run by the answers of the program: `places[n]` is where it is after n steps, `registers[n]`
    the answer to `regs` there, and `lines[n]` what step n wrote. `ends` says that it ends."""

    def __init__(self, program, case):
        self.program, self.case = program, case
        with Machine(program, case.folder, case.image) as machine:
            regs, where = machine.ask("regs", "where")
            found = whole_run(machine, MOST_STEPS)
        self.lines = [[]] + [lines for lines, _, _ in found]
        self.registers = [regs] + [regs for _, regs, _ in found]
        self.places = [where[0]] + [where[0] for _, _, where in found]
        self.last = len(found)
        self.ends = self.lines[-1][-1].startswith("end ")

    def stops(self):
        """The positions after the start at which the run has not ended."""
        return range(1, self.last if self.ends else self.last + 1)

    def is_snapped(self, step):
        """The step lacked a link that is snapped then, so that it is taken again."""
        return any(line.startswith("link ") for line in self.lines[step]) and (
            self.places[step] == self.places[step - 1])

    def rings(self):
        return [place[0] for place in self.places]

    def depths(self):
        """The number of calls in which the run is: calls less returns, by the trace lines."""
        found = [0]
        for lines in self.lines[1:]:
            fields = lines[0].split(" ", 8)
            goes = fields[8] == "next"
            code = fields[3][6:9]
            found.append(found[-1] + (goes and code == "713") - (goes and code == "610"))
        return found

    def values(self, line, index, field):
        """A word of an answer after each number of steps."""
        asked = []
        with Machine(self.program, self.case.folder, self.case.image) as machine:
            for step in range(self.last + 1):
                (answer,) = machine.ask(line) if not step else machine.ask("step", line)[1:]
                asked.append(answer[index].split(" ")[field])
        return asked


def described(session):
    regs, where = session.ask("regs", "where")
    return session.step, regs, where[0]


def differs(session, facts, step):
    """Whether a session is not where the run is after this number of steps."""
    return described(session) != (step, facts.registers[step], facts.places[step])


def is_foreseen(session, facts):
    """The account of the next step is what the machine then does."""
    if session.step == facts.last:
        return True
    account = session.account()
    fields = facts.lines[session.step + 1][0].split(" ", 8)
    if account.unknown or account.outcome.kind == "unknown":
        return True
    return (account.final_text(), account.outcome.trace_text()) == (fields[4], fields[8])


def check_steps(session, facts):
    """Forward, back, and to any step: the session is where the run is, and foresees each step."""
    passed = []
    session.on_service = lambda step, line: passed.append((step, line))
    for step in range(1, facts.last + 1):
        stop = session.forward()
        if differs(session, facts, step) or not is_foreseen(session, facts):
            yield f"forward to step {step} differs"
        if (stop.reason == "end") != (facts.ends and step == facts.last):
            yield f"step {step} stops by {stop.reason}"
    expected = [(step, line) for step, lines in enumerate(facts.lines) for line in lines[1:]
                if not line.startswith("end ")]
    if passed != expected:
        yield f"of the linker and the console {passed}, not {expected}"
    for step in range(facts.last - 1, -1, -1):
        session.back()
        if differs(session, facts, step) or not is_foreseen(session, facts):
            yield f"back to step {step} differs"
    if session.back().reason != "begin" or session.step:
        yield "the start is not the start"
    yield from check_jumps(session, facts)


def check_jumps(session, facts):
    draw = random.Random(36)
    for _ in range(12):
        step = draw.randrange(facts.last + 1)
        session.go_to(step)
        if differs(session, facts, step) or not is_foreseen(session, facts):
            yield f"going to step {step} differs"
        if step and session.trace(step, step)[0] != facts.lines[step][0]:
            yield f"the trace line of step {step} differs"


def positions(session, move, most):
    """The positions at which a move stops, until it reaches an end of the run."""
    found = []
    for _ in range(most):
        stop = move()
        if stop.reason in ("end", "begin") and not stop.what:
            break
        found.append(session.step)
        if stop.reason == "end":
            break
    return found


def compare(what, found, expected):
    if found != expected:
        yield f"{what}: {found}, not {expected}"


def check_breaks(session, facts):
    """Breakpoints forward and back, with conditions and without."""
    executed = list(dict.fromkeys(place[2:] for place in facts.places[:-1]))
    for place in executed[:: max(1, len(executed) // MOST_PLACES)]:
        expected = [step for step in facts.stops()
                    if facts.places[step][2:] == place and not facts.is_snapped(step)]
        yield from check_break(session, facts, place, None, expected)
        if expected:
            chosen = facts.registers[expected[-1]][0].split(" ")[3]
            fitting = [step for step in expected
                       if facts.registers[step][0].split(" ")[3] == chosen]
            yield from check_break(session, facts, place, f"q == {chosen}", fitting)


def check_break(session, facts, place, condition, expected):
    what = f"break {place} if {condition}"
    session.go_to(0)
    added = session.add_break(place, condition)
    yield from compare(what, positions(session, lambda: go(session, facts), facts.last), expected)
    session.go_to(facts.last)
    if facts.places[0][2:] == place and (
            condition is None or facts.registers[0][0].split(" ")[3] == condition[5:]):
        expected = [0, *expected]
    if not facts.ends:
        expected = [step for step in expected if step < facts.last]
    found = positions(session, session.back_go, facts.last + 2)
    yield from compare(f"{what}, back", found, expected[::-1])
    session.drop(added.number)


def go(session, facts):
    """Goes on, but not past the steps of the facts, where it is as if the run ended."""
    if session.step >= facts.last:
        return session.end_stop()
    stop = session.go(facts.last - session.step)
    return stop if stop.reason != "limit" else session.end_stop()


def watched_in(facts):
    """Names of what is watched, with its values after each number of steps."""
    finals = [lines[0].split(" ", 8)[4] for lines in facts.lines[1:]]
    words = list(dict.fromkeys(final[2:] for final in finals if final[1:2] == ":"))
    for place in words[:: max(1, len(words) // MOST_WORDS)]:
        segment, word = (int(part, 8) for part in place.split("|"))
        yield place, facts.values(seg_line(segment, word), 0, 1)
    for name, (index, field) in REGISTERS.items():
        yield name, [regs[index].split(" ")[field] for regs in facts.registers]
    for number in (2, 7):
        yield f"pr{number}", [regs[2 + number].partition(" ")[2] for regs in facts.registers]


def check_watches(session, facts):
    """Watchpoints forward and back, and who changed it last."""
    for name, values in watched_in(facts):
        changed = [step for step in range(1, facts.last + 1) if values[step] != values[step - 1]]
        session.go_to(0)
        added = session.add_watch(name)
        found = positions(session, lambda: go(session, facts), facts.last + 1)
        yield from compare(f"watch {name}", found, changed)
        session.go_to(facts.last)
        found = positions(session, session.back_go, facts.last + 1)
        yield from compare(f"watch {name}, back", found, [step - 1 for step in changed[::-1]])
        session.drop(added.number)
        session.go_to(facts.last)
        stop = session.who(session.watched(name))
        last = changed[-1] if changed else 0
        expected = (last - 1, values[last - 1], values[last]) if changed else None
        found = (stop.step, stop.before, stop.after) if stop else None
        yield from compare(f"who {name}", found, expected)


def check_calls(session, facts):
    """Calls: their number at each step, and the moves over them and out of them."""
    depths, last = facts.depths(), facts.last
    if min(depths) < 0:
        return
    for step in range(0, last):
        session.go_to(step)
        yield from compare(f"calls at {step}", len(session.frames()) - 1, depths[step])
        after = [other for other in range(step + 1, last + 1)
                 if depths[other] <= depths[step] and not facts.is_snapped(other)]
        if after or facts.ends:
            session.over()
            yield from compare(f"over from {step}", session.step, after[0] if after else last)
        session.go_to(step)
        outer = [other for other in range(step + 1, last + 1) if depths[other] < depths[step]]
        if outer:
            session.out()
            yield from compare(f"out from {step}", session.step, outer[0])
            session.go_to(step)
        if depths[step]:
            entered = max(other for other in range(step) if depths[other] < depths[step])
            session.back_out()
            yield from compare(f"back out from {step}", session.step, entered)
            session.go_to(step)
        if step:
            before = max(other for other in range(step) if depths[other] <= depths[step])
            session.back_over()
            yield from compare(f"back over from {step}", session.step, before)


def check_rings(session, facts):
    """To the next change of ring, and back to the last."""
    rings = facts.rings()
    changed = [step for step in range(1, facts.last + 1) if rings[step] != rings[step - 1]]
    session.go_to(0)
    found = []
    while session.step < facts.last:
        if session.to_ring().reason != "ring":
            break
        found.append(session.step)
    yield from compare("ring", found[: len(changed)], changed)
    session.go_to(facts.last)
    found = positions(session, session.back_to_ring, len(changed) + 1)
    yield from compare("back to the ring", found, [step - 1 for step in changed[::-1] if step > 1])


CHECKS = (check_steps, check_breaks, check_watches, check_calls, check_rings)
STEPS = (check_steps,)
# A program that clears a descriptor, through a segment over the descriptors: it reads a word of
# segment 2, clears the descriptor of that segment, and reads the word again, which is refused.
CLEARED = image(
    [op("lda", PAIR, 0o20), op("stz", PAIR + 2, 0o20), op("lda", PAIR, 0o20)],
    pair=[*its(2, 0), *its(3, 4)],
    more={3: sdw(0)},
)


def changed_tables(program, work):
    """An image whose program changes its own tables."""
    (work / "cleared").write_text(CLEARED)
    yield cases.Case("a descriptor that is cleared", work, "cleared")


KINDS = (
    (cases.examples, CHECKS),
    (cases.sessions, STEPS),
    (cases.folder_cases, STEPS),
    (cases.image_cases, STEPS),
    (changed_tables, STEPS),
)


def check_renewed(program, case, facts):
    """A session whose processes take little input goes on at the same step."""
    with Session(program, str(case.folder), case.image, most_input=SMALL_INPUT) as session:
        for step in range(1, facts.last + 1):
            session.forward()
            session.words(*(int(part, 8) for part in facts.places[step][2:].split("|")), 8)
            if differs(session, facts, step):
                yield f"with little input step {step} differs"


def check_case(program, case, checks):
    """What is wrong in a run."""
    facts = Facts(program, case)
    for check in checks:
        with Session(program, str(case.folder), case.image) as session:
            yield from found_by(check, session, facts)
    if checks is CHECKS:
        yield from found_by(check_renewed, program, case, facts)


def check_session(program, work, show=print):
    """The number of things that are not as they should be. After many the rest is left out."""
    wrong, runs = 0, 0
    for kind, checks in KINDS:
        for case in kind(program, work):
            runs += 1
            for line in check_case(program, case, checks):
                wrong += 1
                show(f"{case.name}: {line}")
                if wrong >= MOST_WRONG:
                    show(f"session: {wrong} things wrong in {runs} runs; the rest was not tried")
                    return wrong
    show(f"session: {runs} runs debugged forward and back, {wrong} things wrong")
    return wrong
