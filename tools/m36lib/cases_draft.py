"""Candidates for the next instruction of a drawn program: instruction words, and the words that
their addresses go by."""

from .address import index_of
from .cases_words import (
    SMALL, number, packed_pointer, some_ring, some_segment, some_word, tally_for,
)
from .fields import HALF_WORD, ITP_TAG, dbr_words
from .made_images import its, op
from .table import TABLE

ROWS = list(TABLE.values())
BY_NAME = {row.name: row for row in ROWS}
DIRECT = (0o03, 0o07)
BY_DIRECT = tuple(16 * tm + td for tm in (1, 3) for td in DIRECT)
FAULTING = (0o40, 0o41, 0o42, 0o43, 0o45, 0o46, 0o47, 0o50, 0o52, 0o55, 0o57)
ENDING = (*FAULTING, *BY_DIRECT)
GOING = tuple(tag for tag in range(64) if tag not in ENDING)
OFFSETS = range(-(1 << 14), 1 << 14)
MARGIN = 8
DEEPEST = 3
# How many words a long chain has after its first one: the 17th indirect word is a fault.
LONG = (14, 15, 16)


class Draft:
    """A candidate: the word of an instruction, and words that are laid for it, by their places in
    core."""

    def __init__(self, word, laid):
        self.word = word
        self.laid = laid


class Drafts:
    """Draws candidates in the state of a path. `ends` asks for one that ends the run."""

    def __init__(self, path, ends):
        self.path = path
        self.world = path.world
        self.random = path.random
        self.registers = path.registers
        self.ends = ends
        self.odd = 0.5 if ends else 0.03
        self.laid = {}
        self.row = None

    def draft(self, name):
        """A candidate with this name."""
        self.laid = {}
        self.row = BY_NAME[name]
        tag = self.tag("tag", 0.35)
        base = self.base(tag)
        word = self.word_for(base[0], tag, None, 0)
        return Draft(self.instruction(base, word, tag), self.laid)

    # Tags and places.

    def tag(self, feature, none):
        """A tag, rare ones first; with a probability none."""
        if self.random.random() < none:
            return 0
        if self.random.random() < 0.3:
            return 0o20
        tags = self.random.sample(range(64) if self.ends else GOING, 4)
        counts = self.path.counts
        return min(tags, key=lambda tag: counts[f"{feature} {tag:02o}"])

    def base(self, tag):
        """A segment that an address may begin in, by a pointer register or none: its number, the
        register and the address that its word 0 has."""
        register = self.random.randrange(8)
        pointer = self.registers.pr[register]
        own = self.row.operand in ("T", "Call6") and tag < 16
        if not own and self.random.random() < 0.5 and pointer.segment in self.world.segments:
            return pointer.segment, register, -pointer.word
        return self.registers.segment, None, 0

    def instruction(self, base, word, tag):
        """The instruction word whose address is a word of the segment of a base."""
        _, register, origin = base
        address = word + origin
        if register is None:
            return op(self.row.name, address % HALF_WORD, tag)
        if address not in OFFSETS:
            address = (address + (HALF_WORD >> 1)) % HALF_WORD - (HALF_WORD >> 1)
        return op(self.row.name, address % (1 << 15), tag, register)

    def free_place(self, number):
        """An even word of a segment such that nothing has looked at it and at the word after it; or
        None."""
        segment = self.world.segments.get(number)
        if segment is None or segment.kind == "odd":
            return None
        first = segment.words // 2 + MARGIN if segment.kind == "code" else 0
        for _ in range(4):
            word = self.random.randrange(first, segment.words, 2)
            both = (segment.base + word, segment.base + word + 1)
            if not any(at in self.path.seen or at in self.laid for at in both):
                return word
        return None

    def lay(self, number, word, words):
        base = self.world.segments[number].base + word
        self.laid.update((base + offset, found) for offset, found in enumerate(words))

    # Addresses.

    def word_for(self, number, tag, held, depth):
        """The word of a segment at which a point with a tag is to be, so that the chain goes to an
        operand. `held` is the value of a held register or None."""
        tm, td = divmod(tag, 16)
        if tm == 0 and held is None and td in DIRECT:
            return self.random.choice((*SMALL, 5)) % HALF_WORD
        if tm == 0:
            return self.end_word(number) - (index_of(self.registers, td) if held is None else held)
        if tag in FAULTING or tag in BY_DIRECT:
            return self.random.randrange(64)
        place = self.free_place(number)
        if place is None:
            return some_word(self.random, self.world, number)
        if tm == 2:
            self.lay(number, place, (tally_for(self.random, tag, self.end_word(number)),))
            return place
        index = index_of(self.registers, td)
        self.lay(number, place, (0, 0))
        self.lay(number, place, self.indirect(number, place, index if tm == 3 else held, depth))
        return place if tm == 3 else place - index

    def indirect(self, number, place, held, depth):
        """An indirect word, or a pair, for a place of a segment."""
        random = self.random
        if self.ends and random.random() < 0.04:
            return (place << 18 | 0o20,)
        if depth == 0 and random.random() < 0.02:
            return self.long_chain(number, place, held)
        tag = self.tag("chain tag", 0.5) if depth < DEEPEST else 0
        kind = random.random()
        if kind < 0.15:
            word = self.word_for(number, tag, held, depth + 1)
            return (word % HALF_WORD << 18 | tag,)
        bit = random.choice((0, 0, 9, 0o43)) << 9
        register = random.randrange(8)
        pointer = self.registers.pr[register]
        if kind < 0.3 and pointer.segment in self.world.segments:
            word = self.word_for(pointer.segment, tag, held, depth + 1) - pointer.word
            return register << 33 | ITP_TAG, word % HALF_WORD << 18 | bit | tag
        segment = self.segment()
        word = self.word_for(segment, tag, held, depth + 1)
        ring = some_ring(random, self.registers.ring)
        return its(segment, word % HALF_WORD, ring, bit >> 9, tag)

    def long_chain(self, number, place, held):
        """Indirect words that go by many others to an operand: the first of them."""
        places = [place]
        for _ in range(self.random.choice(LONG)):
            after = self.free_place(number)
            if after is None:
                return 0, 0
            self.lay(number, after, (0, 0))
            places.append(after)
        last = self.word_for(number, 0, held, DEEPEST)
        for one, after in zip(places, [*places[1:], None]):
            word = last % HALF_WORD << 18 if after is None else after << 18 | 0o20
            self.lay(number, one, (word,))
        return (self.laid[self.world.segments[number].base + place],)

    def segment(self):
        """A segment for an operand or a target."""
        if self.row.operand in ("T", "Call6") and self.random.random() > self.odd:
            return self.code_segment()
        return some_segment(self.random, self.world, self.odd)

    def code_segment(self):
        codes = [one.number for one in self.world.segments.values() if one.kind == "code"]
        return self.random.choice(codes)

    # Operands and targets.

    def end_word(self, number):
        """A word of a segment for the operand, or for the target."""
        segment = self.world.segments.get(number)
        if segment is None or segment.kind == "odd" or self.random.random() < self.odd / 5:
            return some_word(self.random, self.world, number)
        if self.row.operand in ("T", "Call6"):
            return self.target(segment)
        word = self.free_place(number)
        if word is None or (segment.kind != "code" and self.random.random() < 0.2):
            first = segment.words // 2 if segment.kind == "code" else 0
            return self.random.randrange(first, segment.words)
        self.lay(number, word, self.operand())
        return word

    def target(self, segment):
        """A word to go to: an entry, or a word that is not yet drawn."""
        if segment.kind != "code":
            return self.random.randrange(segment.words)
        other = segment.number != self.registers.segment
        often = 0.5 if self.ends else 0.9
        if segment.entries and other and self.random.random() < often:
            return self.random.randrange(segment.entries)
        words = range(segment.words // 2 - MARGIN)
        free = [word for word in words if segment.base + word not in self.path.seen]
        return self.random.choice(free[:20]) if free else 0

    def operand(self):
        """Two words for an operand."""
        random = self.random
        effect = self.row.effect
        if effect == "Rtcd":
            segment = self.code_segment()
            if random.random() < self.odd:
                segment = some_segment(random, self.world, self.odd)
            found = self.world.segments.get(segment)
            word = self.target(found) if found else some_word(random, self.world, segment)
            return its(segment, word, some_ring(random, self.registers.ring))
        if effect == "Ldbr":
            stack = random.choice((self.world.dbr.stack, 1, 2, 3, 0o7777))
            return dbr_words(self.world.dbr._replace(stack=stack))
        if effect == "LprpN":
            return packed_pointer(random, self.world), number(random)
        return number(random), number(random)
