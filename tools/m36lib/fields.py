"""Words, fields, descriptors and pairs (docs/MANUAL.md, sections 1 and 3)."""

from functools import lru_cache
from typing import NamedTuple

from .registers import Dbr, Pointer

ITS_TAG = 0o43
ITP_TAG = 0o41
WORD = 1 << 36
HALF_WORD = 1 << 18
CORE_ADDRESSES = 1 << 24
PAGE = 1024


def bits(word, first, count):
    """The field of `count` bits from bit `first` on; bit 0 is the most significant of 36."""
    return word >> (36 - first - count) & ((1 << count) - 1)


def is_on(word, bit):
    return bool(word >> (35 - bit) & 1)


def upper(word):
    return word >> 18


def lower(word):
    return word & 0o777777


def signed(value, width):
    """The number in two's complement."""
    return value - (1 << width) if value >> (width - 1) else value


class Sdw(NamedTuple):
    """A segment descriptor."""

    address: int
    r1: int
    r2: int
    r3: int
    present: bool
    fault: int
    bound: int
    read: bool
    execute: bool
    write: bool
    privileged: bool
    unpaged: bool
    no_gate: bool
    limit: int


@lru_cache(maxsize=4096)
def sdw_of(even, odd):
    return Sdw(
        address=bits(even, 0, 24),
        r1=bits(even, 24, 3),
        r2=bits(even, 27, 3),
        r3=bits(even, 30, 3),
        present=is_on(even, 33),
        fault=bits(even, 34, 2),
        bound=bits(odd, 1, 14),
        read=is_on(odd, 15),
        execute=is_on(odd, 16),
        write=is_on(odd, 17),
        privileged=is_on(odd, 18),
        unpaged=is_on(odd, 19),
        no_gate=is_on(odd, 20),
        limit=bits(odd, 22, 14),
    )


class Ptw(NamedTuple):
    """A page table word."""

    address: int
    present: bool
    fault: int


def ptw_of(word):
    return Ptw(address=bits(word, 0, 18), present=is_on(word, 33), fault=bits(word, 34, 2))


def marked(word, modified):
    """A page table word with its used bit on, and with its modified bit on where that is asked."""
    word |= 1 << (35 - 26)
    return word | 1 << (35 - 29) if modified else word


def dbr_of(even, odd):
    return Dbr(
        address=bits(even, 0, 24),
        bound=bits(odd, 1, 14),
        unpaged=is_on(odd, 19),
        stack=bits(odd, 24, 12),
    )


def dbr_words(dbr):
    return dbr.address << 12, dbr.bound << 21 | dbr.unpaged << 16 | dbr.stack


def pointer_of(even, odd):
    """What an ITS pair says: segment, ring, word and bit number."""
    return Pointer(bits(even, 3, 15), bits(even, 18, 3), bits(odd, 0, 18), bits(odd, 21, 6))


def pair_of(pointer):
    """A pointer as an ITS pair with tag 0."""
    even = pointer.segment << 18 | pointer.ring << 15 | ITS_TAG
    return even, pointer.word << 18 | pointer.bit << 9


def packed_pointer_of(word, ring):
    """The pointer that a packed pointer means in a ring."""
    segment = bits(word, 6, 12)
    full = 0o77777 if segment == 0o7777 else segment
    return Pointer(full, ring, bits(word, 18, 18), bits(word, 0, 6))


def tag_of(word):
    return word & 0o77


class Instruction(NamedTuple):
    """An instruction word."""

    address: int
    code: int
    bit_27: bool
    by_pointer: bool
    tag: int

    @property
    def pointer(self):
        """The number of the pointer register, where bit 29 is on."""
        return self.address >> 15

    @property
    def offset(self):
        """The signed offset of 15 bits after a pointer register."""
        return signed(self.address & 0o77777, 15)


@lru_cache(maxsize=65536)
def instruction_of(word):
    return Instruction(
        address=bits(word, 0, 18),
        code=bits(word, 18, 9),
        bit_27=is_on(word, 27),
        by_pointer=is_on(word, 29),
        tag=tag_of(word),
    )
