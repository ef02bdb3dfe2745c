"""The account of one step, from the state before it alone (docs/MANUAL.md, section 8).

    account = explain(registers, memory, names)

The trace line of the step is no input. `memory` is one of memory.py and is left as it was: the
caller makes the changes of the account with `memory.commit(account.commits)` once the step is
taken."""

from .account import Account, Outcome, Place, WordChange
from .address import Chain
from .disassemble import disassemble, row_of
from .effect import EffectRefused, Given
from .effects_control import CALLS, CONTROL, is_taken
from .effects_table import DATA
from .fields import HALF_WORD, instruction_of
from .memory import NoAccess, NotKnown
from .names import PLAIN
from .references import References, Refused, fault_name
from .rights import ring_called

STEP, EFFECTS, FAULTS = "8", "9", "11"
MASTER_MODE_ENTRY, DERAIL, ILLEGAL_PROCEDURE, OVERFLOW = 2, 6, 10, 13
READS = {"R": 1, "R2": 2, "R16": 16}
WRITES = {"W": (1, "whole"), "W2": (2, "whole"), "W16": (16, "whole"), "Wl": (1, "left")}
WRITES["Wr"] = (1, "right")
CHANGES = {"Rw": "whole", "Rwl": "left"}


def explain(registers, memory, names=PLAIN):
    """The account of the step that begins with these registers and this memory."""
    return Explanation(registers, memory, names).account()


def merged(part, old, value):
    """A word with a part of it written; a half is right-justified in the value."""
    if part == "left":
        return value << 18 | old % HALF_WORD
    if part == "right":
        return old >> 18 << 18 | value
    return value


class Explanation:
    """Works out one step."""

    def __init__(self, registers, memory, names):
        self.registers = registers
        self.memory = memory
        self.names = names
        self.here = Place(registers.ring, registers.segment, registers.word)
        self.result = Account(at=self.here, after=registers)
        self.references = References(registers, memory, self.result, names)
        self.row = None

    def account(self):
        self.memory.begin()
        try:
            self.step()
        except Refused as refused:
            self.end(refused.outcome)
        except NoAccess as refusal:
            self.end(self.refusal_outcome(refusal))
        except NotKnown as why:
            self.result.unknown = str(why)
            self.end(Outcome("unknown", f"What happens is not known here: {why}.", STEP))
        return self.result

    def end(self, outcome):
        """The step ends in a fault or a stop, and changes no register and no word."""
        self.result.outcome = outcome
        self.result.say(outcome.text, outcome.rule, "end")
        if outcome.kind == "fault" and outcome.rule != FAULTS:
            self.result.say(self.fault_text(outcome), FAULTS, "end")
        if outcome.kind != "unknown":
            self.result.say("Registers and words stay as they were.", STEP, "end")

    def fault_text(self, fault):
        """In which fault the step ends, and where: of an outcome or a refusal."""
        name = fault_name(fault.number, fault.violation)
        where = self.names.word(fault.place.segment, fault.place.word)
        ring = fault.place.ring
        return f"The step ends in fault {fault.number}, {name}, at {where} in ring {ring}."

    def refusal_outcome(self, refusal):
        return Outcome(
            "fault",
            self.fault_text(refusal),
            FAULTS,
            number=refusal.number,
            violation=refusal.violation,
            place=refusal.place,
        )

    def fault_here(self, number, text, rule):
        outcome = Outcome("fault", text, rule, number=number, place=self.here)
        raise Refused(outcome)

    # The parts of a step in their order.

    def step(self):
        sdw, (word,) = self.references.ask("fetch", self.here)
        self.result.word = word
        self.result.instruction = disassemble(word)
        self.row = row_of(word)
        if self.row is None:
            text = f"The code of {word:012o} has no instruction: the machine stops."
            raise Refused(Outcome("stop", text, STEP, stop="operation"))
        self.result.say(
            f"Ring {self.registers.ring} executes {self.result.instruction} at "
            f"{self.names.word(self.here.segment, self.here.word)}.",
            STEP,
            "decode",
        )
        if self.row.privileged:
            self.check_privilege(sdw)
        if self.row.operand == "N":
            self.without_address()
        end = Chain(self.registers, self.references, self.result, self.names).form(
            instruction_of(word)
        )
        self.result.final, self.result.bit, self.result.direct = end.place, end.bit, end.direct
        self.operate(end)

    def check_privilege(self, sdw):
        name = self.row.name
        if sdw.privileged and self.registers.ring == 0:
            self.result.say(f"May it execute {name}? Yes: P is on, in ring 0.", STEP, "decode")
            return
        ring = self.registers.ring
        why = "P is off" if ring == 0 else f"ring {ring} is not ring 0"
        text = f"May it execute {name}, which is privileged? No, illegal procedure: {why}."
        self.fault_here(ILLEGAL_PROCEDURE, text, STEP)

    def without_address(self):
        if self.row.effect == "Mme":
            self.fault_here(MASTER_MODE_ENTRY, "MME gives its fault.", STEP)
        if self.row.effect == "Drl":
            self.fault_here(DERAIL, "DRL gives its fault.", STEP)
        raise Refused(Outcome("stop", "DIS stops the machine.", STEP, stop="dis"))

    def operate(self, end):
        """References the operand, and makes the effect."""
        registers = self.with_runout(end)
        kind = self.row.operand
        if end.direct is not None:
            self.direct(registers, end)
        elif kind in READS:
            self.reading(registers, end, READS[kind])
        elif kind in WRITES:
            self.writing(registers, end, *WRITES[kind])
        elif kind in CHANGES:
            self.changing(registers, end, CHANGES[kind])
        elif kind == "T":
            self.transferring(registers, end)
        elif kind == "Call6":
            sdw, _ = self.references.ask("call", end.place)
            self.perform(registers, end, ring=ring_called(sdw, end.place.ring))
        else:
            self.addressing(registers, end)

    def with_runout(self, end):
        """The registers with the tally runout that the chain has set."""
        if end.runout is None:
            return self.registers
        indicators = self.registers.indicators._replace(tally=end.runout)
        return self.registers.but(indicators=indicators)

    def direct(self, registers, end):
        if not self.row.direct:
            text = f"{self.row.name} takes no direct operand: illegal procedure."
            self.fault_here(ILLEGAL_PROCEDURE, text, STEP)
        self.perform(registers, end, words=(end.direct,))

    def aligned(self, place, count):
        return Place(place.ring, place.segment, place.word - place.word % count)

    def reading(self, registers, end, count):
        place = self.aligned(end.place, count)
        sdw, words = self.references.ask("read", place, count, end.pending)
        self.perform(registers, end, words=tuple(words), ring=sdw.r1)

    def writing(self, registers, end, count, part):
        place = self.aligned(end.place, count)
        _, spots = self.references.ask("write", place, count)
        self.perform(registers, end, put=(place, spots, part))

    def changing(self, registers, end, part):
        _, words = self.references.ask("read", end.place, 1, end.pending)
        _, spots = self.references.ask("write", end.place)
        self.perform(registers, end, words=tuple(words), put=(end.place, spots, part))

    def transferring(self, registers, end):
        if not is_taken(self.row.effect, registers):
            text = "The condition does not hold, so the transfer is not taken."
            self.result.say(text, EFFECTS, "effect")
            self.finish(registers.but(word=(registers.word + 1) % HALF_WORD), end, None, (), False)
            return
        self.references.ask("transfer", end.place)
        self.perform(registers, end)

    def addressing(self, registers, end):
        core = None
        if self.row.effect == "Absa":
            _, (core,) = self.references.ask("locate", end.place)
            if self.memory.booted:
                self.result.unknown = "in which frame of a booted system a page is, is free"
                core = None
        self.perform(registers, end, core=core)

    # The effect.

    def perform(self, registers, end, words=(), ring=0, core=None, put=None):
        effect_name = self.row.effect
        operation, register, form = DATA.get(effect_name, (CONTROL.get(effect_name), None, None))
        operand = form(register, words, end.place) if form else None
        given = Given(
            registers=registers,
            register=register,
            number=self.row.register,
            operand=operand,
            words=words,
            final=end.place,
            bit=end.bit,
            ring=ring,
            core=core,
            names=self.names,
        )
        try:
            effect = operation(given)
        except EffectRefused as refused:
            self.fault_here(refused.number, refused.text, EFFECTS)
        rule = CALLS if effect_name in ("Call6", "Rtcd") else EFFECTS
        self.result.say(effect.text, rule, "effect")
        after = effect.registers
        if not effect.goes:
            after = after.but(word=given.next_word())
        self.finish(after, end, put, effect.put, effect.overflow)

    def finish(self, after, end, put, values, overflow):
        """The registers after the step, the words that it writes, and how it ends."""
        self.result.after = after
        self.say_indicators(after)
        self.write_words(end, put, values)
        if overflow and not after.indicators.mask:
            text = "Overflow is put on and the mask is off: the step ends in fault 13, overflow."
            self.result.outcome = Outcome("fault", text, STEP, number=OVERFLOW, place=self.here)
        else:
            self.result.outcome = Outcome("next", "The machine goes on.", STEP)
        self.result.say(self.result.outcome.text, STEP, "end")

    def say_indicators(self, after):
        before = self.registers.indicators
        now = after.indicators
        on = [name for name in now._fields if getattr(now, name) and not getattr(before, name)]
        off = [name for name in now._fields if getattr(before, name) and not getattr(now, name)]
        parts = [f"{listed(names)} {how}" for names, how in ((on, "on"), (off, "off")) if names]
        if parts:
            self.result.say(f"Indicators: {', '.join(parts)}.", EFFECTS, "effect")

    def write_words(self, end, put, values):
        """Writes the tally word first, and then the words of the operand."""
        written = {}
        for (spot, word), (_, segment, number) in zip(end.pending, self.references.claims):
            written[spot] = [segment, number, self.memory.content(spot, segment, number), word]
        if put:
            place, spots, part = put
            for offset, (spot, value) in enumerate(zip(spots, values)):
                number = place.word + offset
                if spot not in written:
                    old = self.memory.content(spot, place.segment, number)
                    written[spot] = [place.segment, number, old, old]
                written[spot][3] = merged(part, written[spot][3], value)
        self.result.commits = [(spot, entry[3]) for spot, entry in written.items()]
        for segment, number, before, now in written.values():
            self.result.words.append(WordChange(segment, number, before, now))
            where = self.names.word(segment, number)
            self.result.say(f"{where} becomes {now:012o}; it was {before:012o}.", STEP, "effect")


def listed(names):
    return " and ".join(names) if len(names) < 3 else ", ".join(names[:-1]) + " and " + names[-1]
