"""Tally words (docs/MANUAL.md, section 7): an address in bits 0-17, a tally in 18-29 and an
increment in 30-35."""

from .fields import HALF_WORD, bits, upper

I, ID, DI, AD, SD = 0o51, 0o56, 0o54, 0o53, 0o44
TALLY_TAGS = (I, ID, DI, AD, SD)
TALLIES = 1 << 12


def counted(tag, word):
    """The final address, the new word or None, and whether the tally runs out or None."""
    address, tally, step = upper(word), bits(word, 18, 12), word & 0o77
    if tag == I:
        return address, None, None
    by = step if tag in (AD, SD) else 1
    if tag in (ID, AD):
        final, after, tally = address, (address + by) % HALF_WORD, (tally - 1) % TALLIES
    else:
        final = after = (address - by) % HALF_WORD
        tally = (tally + 1) % TALLIES
    return final, after << 18 | tally << 6 | step, tally == 0
