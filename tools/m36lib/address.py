"""The address chain (docs/MANUAL.md, section 7).

A chain goes from point to point: from where the instruction points, by indirect words, pairs and
tally words, to the final address. Each point has a segment, a ring, an address, a bit number, a tag
and perhaps a held register."""

from typing import NamedTuple

from .account import Candidate, Link, Outcome, Place
from .disassemble import REGISTERS, tag_text
from .fields import HALF_WORD, ITP_TAG, ITS_TAG, bits, lower, pointer_of, tag_of, upper
from .references import Refused
from .tally import TALLY_TAGS, counted

RULE = "7"
MOST_INDIRECT_WORDS = 16
DU, DL = 3, 7
FAULT_TAGS = {0o40: 3, 0o46: 24, 0o47: 25}
LINK_FAULT = 24
LOCKUP, ILLEGAL_PROCEDURE = 7, 10


class Point(NamedTuple):
    """A point of the chain. `held` is the value of a held register or None; `carrier` the word that
    carried the tag, with the ring that a fault tag names."""

    segment: int
    ring: int
    address: int
    bit: int
    tag: int
    held: int
    carrier: Place


class ChainEnd(NamedTuple):
    """The final address, a direct operand or None, the tally word that is still to be written as
    pairs of a spot and a word, and the new tally runout or None."""

    place: Place
    bit: int
    direct: int
    pending: tuple
    runout: bool


def index_of(registers, td):
    """The value of the register that Td names; 0 for none."""
    if td == 0:
        return 0
    if td == 1:
        return upper(registers.a)
    if td == 2:
        return upper(registers.q)
    if td == 4:
        return registers.word
    if td == 5:
        return lower(registers.a)
    if td == 6:
        return lower(registers.q)
    return registers.x[td - 8]


def greatest(candidates):
    return max(candidate.ring for candidate in candidates)


def rings_text(candidates):
    """Why a ring is what it is."""
    reasons = [candidate.why for candidate in candidates]
    most = "greater" if len(reasons) == 2 else "greatest"
    return f"the {most} of {', '.join(reasons[:-1])}, and {reasons[-1]}"


class Chain:
    """Forms the address of one instruction."""

    def __init__(self, registers, references, account, names):
        self.registers = registers
        self.references = references
        self.account = account
        self.names = names
        self.here = Place(registers.ring, registers.segment, registers.word)

    def form(self, instruction):
        point = self.first_point(instruction)
        for number in range(MOST_INDIRECT_WORDS + 1):
            end, at, held = self.move(point)
            if end is not None:
                self.references.link = None
                return end
            if number == MOST_INDIRECT_WORDS:
                self.lockup(point, at)
            self.references.link = len(self.account.chain)
            if held is COUNTS:
                return self.count(point)
            point = self.follow(point, at, held)
        raise AssertionError("a chain has at most 17 points")

    # The first point.

    def first_point(self, instruction):
        registers = self.registers
        if not instruction.by_pointer:
            candidates = (Candidate(registers.ring, f"{registers.ring}, which executes"),)
            point = Point(
                registers.segment,
                registers.ring,
                instruction.address,
                0,
                instruction.tag,
                None,
                self.here,
            )
            where = self.names.word(point.segment, point.address)
            text = f"The address is {where}, in ring {point.ring}, which executes."
            self.link("instruction", point, candidates, text)
            return point
        number = instruction.pointer
        pointer = registers.pr[number]
        candidates = (
            Candidate(registers.ring, f"{registers.ring}, which executes"),
            Candidate(pointer.ring, f"{pointer.ring} in PR{number}"),
        )
        ring = greatest(candidates)
        point = Point(
            pointer.segment,
            ring,
            (pointer.word + instruction.offset) % HALF_WORD,
            pointer.bit,
            instruction.tag,
            None,
            Place(ring, registers.segment, registers.word),
        )
        text = (
            f"PR{number} with the offset {offset_text(instruction.offset)} points to "
            f"{self.names.word(point.segment, point.address)}, in ring {ring}: the ring is "
            f"{rings_text(candidates)}."
        )
        self.link("instruction", point, candidates, text)
        return point

    def link(self, kind, point, candidates, text, read=None, words=()):
        place = Place(point.ring, point.segment, point.address)
        self.account.chain.append(
            Link(kind, place, point.bit, point.tag, candidates, text, RULE, read, tuple(words))
        )
        self.account.say(text, RULE, "chain")

    # What the tag of a point does: the chain ends, or the word at an address is read.

    def move(self, point):
        """The end of the chain, or None with the address of the indirect word and what is held."""
        tm, td = divmod(point.tag, 16)
        if tm == 0:
            return self.by_register(point, td), None, None
        if tm == 2:
            return self.by_tally(point)
        if td in (DU, DL):
            self.fail(
                ILLEGAL_PROCEDURE,
                self.here,
                f"Tag {point.tag:02o} asks for an indirect word by a direct operand.",
            )
        if tm == 1:
            address = (point.address + index_of(self.registers, td)) % HALF_WORD
            self.say_index(point, td, address)
            return None, address, point.held
        return None, point.address, index_of(self.registers, td)

    def by_register(self, point, td):
        if point.held is not None:
            address = (point.address + point.held) % HALF_WORD
            if point.held:
                where = self.names.word(point.segment, address)
                self.say(f"The held register has {point.held:o}, so the address is {where}.")
            return self.end_at(point, address)
        if td in (DU, DL):
            operand = point.address << 18 if td == DU else point.address
            half = "left" if td == DU else "right"
            self.say(
                f"Tag {tag_text(point.tag)}: the operand is the address itself, in the {half} "
                f"half: {operand:012o}."
            )
            place = Place(point.ring, point.segment, point.address)
            return ChainEnd(place, point.bit, operand, (), None)
        address = (point.address + index_of(self.registers, td)) % HALF_WORD
        self.say_index(point, td, address)
        return self.end_at(point, address)

    def end_at(self, point, address):
        place = Place(point.ring, point.segment, address)
        return ChainEnd(place, point.bit, None, (), None)

    def say_index(self, point, td, address):
        if td:
            value = index_of(self.registers, td)
            where = self.names.word(point.segment, address)
            self.say(f"Tag {tag_text(point.tag)}: {REGISTERS[td]} has {value:o}: {where}.")

    def say(self, text):
        self.account.say(text, RULE, "chain")

    def by_tally(self, point):
        number = FAULT_TAGS.get(point.tag)
        if number is not None:
            where = self.names.word(point.carrier.segment, point.carrier.word)
            text = f"The word at {where} has the tag {point.tag:02o}, which is a fault tag."
            if number == LINK_FAULT:
                text += " A link has it until it is snapped."
            self.fail(number, point.carrier, text)
        if point.tag in (ITS_TAG, ITP_TAG):
            self.fail(
                ILLEGAL_PROCEDURE,
                self.here,
                f"Tag {point.tag:02o} of a pair is not in the even word of a pair.",
            )
        if point.tag in TALLY_TAGS:
            return None, point.address, COUNTS
        text = f"The indirect modification {point.tag:02o} is not provided: the machine stops."
        raise Refused(Outcome("stop", text, RULE, stop="tag"))

    def fail(self, number, place, text):
        raise Refused(Outcome("fault", text, RULE, number=number, place=place))

    def lockup(self, point, address):
        place = Place(point.ring, point.segment, address)
        self.fail(LOCKUP, place, "The address needs a 17th indirect word.")

    # Indirect words.

    def follow(self, point, address, held):
        """The point after the indirect word at an address of a point's segment."""
        place = Place(point.ring, point.segment, address)
        sdw, words = self.references.ask("indirect", place)
        tag = tag_of(words[0])
        if address % 2 == 0 and tag in (ITS_TAG, ITP_TAG):
            return self.pair(point, place, held, words[0], sdw)
        ring = point.ring
        point = Point(
            point.segment,
            ring,
            upper(words[0]),
            point.bit,
            tag,
            held,
            Place(max(ring, sdw.r1), place.segment, address),
        )
        text = (
            f"The indirect word at {self.names.word(place.segment, address)} gives the address "
            f"{point.address:o} and the tag {tag:02o}; segment and ring stay."
        )
        candidates = (Candidate(ring, f"{ring} so far"),)
        self.link("word", point, candidates, text, place, words)
        return point

    def pair(self, point, place, held, even, sdw):
        odd_place = Place(place.ring, place.segment, place.word + 1)
        _, (odd,) = self.references.ask("indirect", odd_place, silent=True)
        of_pair = pointer_of(even, odd)
        if tag_of(even) == ITS_TAG:
            kind, what, segment = "its", "in the pair", of_pair.segment
            named, address = of_pair.ring, of_pair.word
        else:
            number = bits(even, 0, 3)
            pointer = self.registers.pr[number]
            kind, what, segment = "itp", f"in PR{number}, which the pair names", pointer.segment
            named, address = pointer.ring, (pointer.word + of_pair.word) % HALF_WORD
        candidates = (
            Candidate(point.ring, f"{point.ring} so far"),
            Candidate(named, f"{named} {what}"),
            Candidate(sdw.r1, f"R1 = {sdw.r1} of the segment that holds the pair"),
        )
        ring = greatest(candidates)
        carrier = Place(ring, odd_place.segment, odd_place.word)
        after = Point(segment, ring, address, of_pair.bit, tag_of(odd), held, carrier)
        text = (
            f"The {kind.upper()} pair at {self.names.word(place.segment, place.word)} points to "
            f"{self.names.word(segment, address)}, in ring {ring}: the ring is "
            f"{rings_text(candidates)}."
        )
        self.link(kind, after, candidates, text, place, (even, odd))
        return after

    # Tally words.

    def count(self, point):
        """The end of the chain at a tally word."""
        place = Place(point.ring, point.segment, point.address)
        _, (word,) = self.references.ask("indirect", place)
        address, new_word, runout = counted(point.tag, word)
        pending = ()
        if new_word is not None:
            _, (spot,) = self.references.ask("write", place)
            pending = ((spot, new_word),)
            self.references.claims.append((spot, place.segment, place.word))
        where = self.names.word(place.segment, place.word)
        text = (
            f"Tag {tag_text(point.tag)}: the tally word at {where} gives the address {address:o}"
            + (f", and becomes {new_word:012o}." if new_word is not None else " and stays.")
        )
        end = Point(point.segment, point.ring, address, point.bit, 0, None, place)
        candidates = (Candidate(point.ring, f"{point.ring} so far"),)
        self.link("tally", end, candidates, text, place, (word,))
        if runout is not None:
            what = "0: tally runout is on" if runout else "not 0: tally runout is off"
            self.say(f"The new tally is {what}.")
        self.references.link = None
        return ChainEnd(
            Place(point.ring, point.segment, address), point.bit, None, pending, runout
        )


COUNTS = object()


def offset_text(offset):
    return f"-{-offset:o}" if offset < 0 else f"{offset:o}"
