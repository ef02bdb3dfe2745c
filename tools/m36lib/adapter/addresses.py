"""Addresses as an editor counts them.

Editors know a flat memory of bytes. Here a word takes eight bytes, its 36 bits at the end of them,
and a segment has the room of 2^18 words: word W of segment S begins at byte 8 * (S * 2^18 + W)."""

import re

from ..debugging import NoPlace
from .channel import Refused

WORD_BYTES = 8
SEGMENT_WORDS = 1 << 18
SEGMENTS = 1 << 15
NUMBER = re.compile(r"0x[0-9a-fA-F]{1,12}|[0-9]{1,15}")


def address_of(segment, word):
    """The address of a word, as the protocol has it."""
    return f"0x{WORD_BYTES * (segment * SEGMENT_WORDS + word):x}"


def byte_of(session, reference):
    """The number of the byte that a reference names: an address, or a place of the debugger."""
    if NUMBER.fullmatch(reference):
        return int(reference, 0 if reference.startswith("0x") else 10)
    try:
        segment, word = session.places.find(reference)
    except NoPlace as why:
        raise Refused(str(why)) from None
    return WORD_BYTES * (segment * SEGMENT_WORDS + word)


def word_of(byte):
    """Segment and word of a byte."""
    segment, word = divmod(byte // WORD_BYTES, SEGMENT_WORDS)
    if not 0 <= segment < SEGMENTS:
        raise Refused("there is no segment at this address")
    return segment, word


def bytes_of_word(word):
    """The bytes of a word."""
    return word.to_bytes(WORD_BYTES, "big")
