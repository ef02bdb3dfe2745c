"""Random words: numbers, pairs, indirect words, tally words and packed pointers."""

from .fields import HALF_WORD, ITP_TAG, WORD
from .made_images import its

SMALL = (0, 1, 2, 7, 0o777777, HALF_WORD, WORD - 1, WORD >> 1, (WORD >> 1) - 1)


def number(random):
    """A number, often one at an edge."""
    kind = random.random()
    if kind < 0.4:
        return random.choice(SMALL)
    return random.randrange(64) if kind < 0.6 else random.randrange(WORD)


def tag(random):
    """A tag of an indirect word or a pair: mostly none."""
    return 0 if random.random() < 0.6 else random.randrange(64)


def some_segment(random, world, odd=0.1):
    """A segment of the world; now and then one that refuses, or none."""
    often = 1 if "descriptor" in world.goal or "segment" in world.goal else 3
    if random.random() < odd / often:
        return random.choice(world.absent)
    if world.aimed and random.random() < odd:
        return random.choice(world.aimed).number
    wanted = "odd" if random.random() < odd else random.choice(("code", "data", "data", "stack"))
    found = [segment for segment in world.segments.values() if segment.kind == wanted]
    return random.choice(found).number if found else 1


def some_word(random, world, number):
    """A word of a segment; now and then one past its end."""
    segment = world.segments.get(number)
    if segment is None or random.random() < 0.03:
        return random.randrange(HALF_WORD)
    return random.randrange(segment.words)


def some_ring(random, ring):
    """A ring, mostly none above one."""
    return random.randint(0, ring) if random.random() < 0.7 else random.randrange(8)


def its_pair(random, world, odd=0.1):
    segment = some_segment(random, world, odd)
    word = some_word(random, world, segment)
    ring = some_ring(random, world.ring)
    return its(segment, word, ring, random.choice((0, 0, 9, 27)), tag(random))


def itp_pair(random):
    word = random.choice((0, 0, 1, 2, random.randrange(HALF_WORD)))
    return random.randrange(8) << 33 | ITP_TAG, word << 18 | random.randrange(36) << 9 | tag(random)


def tally_for(random, tag, word):
    """A tally word whose final address by a tag is a word."""
    increment = random.choice((0, 1, 2, 63))
    added = {0o54: 1, 0o53: -increment, 0o44: increment}.get(tag, 0)
    tally = random.choice((0, 1, 4095, random.randrange(4096)))
    return (word + added) % HALF_WORD << 18 | tally << 6 | increment


def packed_pointer(random, world):
    segment = some_segment(random, world)
    bit = random.choice((0, 0, 9, 0o63))
    return bit << 30 | (segment & 0o7777) << 18 | some_word(random, world, segment)


def any_word(random, world):
    """Two words, of which the first is at an even word."""
    kind = random.random()
    if kind < 0.25:
        return its_pair(random, world)
    if kind < 0.35:
        return itp_pair(random)
    if kind < 0.5:
        tally = tally_for(random, 0o51, random.randrange(64))
        return random.randrange(64) << 18 | tag(random), tally
    if kind < 0.6:
        return packed_pointer(random, world), number(random)
    return number(random), number(random)
