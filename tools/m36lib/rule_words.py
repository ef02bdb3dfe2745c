"""What an instruction does, in words that hold for every operand (docs/MANUAL.md, section 9).

    rule = rule_of(row)     # of a row of table.py
    rule.sentence           "A becomes the operand."
    rule.indicators         ("zero", "negative")

The account of a step says the same with the values of that step; a check compares the indicators
with those that the account changes."""

from typing import NamedTuple

from . import effects_data as data
from .effect import do_nothing
from .effects_table import DATA
from .registers import Indicators
from .working import name_of

TESTED = "zero negative"
SUMMED = "zero negative carry overflow"
LOGICAL = "zero negative carry"
NEGATED = "zero negative overflow"
EVERY = " ".join(Indicators._fields)
COUNT = "by the address modulo 128"


class Rule(NamedTuple):
    """A sentence, and the indicators that the instruction may change."""

    sentence: str
    indicators: tuple


# {r} is the register, {o} the operand, {t} what is written.
OPERATIONS = {
    data.load: ("{r} becomes {o}.", TESTED),
    data.load_complement: ("{r} becomes the negative of {o}.", NEGATED),
    data.load_and_clear: ("{r} becomes {o}, and {t} becomes 0.", TESTED),
    data.load_indicators: (
        "The indicators become bits 18, 19, 20, 21, 24 and 25 of the operand. There is no overflow "
        "fault.",
        EVERY,
    ),
    data.store: ("{r} is stored in {t}.", ""),
    data.store_zero: ("0 is stored in {t}.", ""),
    data.store_indicators: (
        "Bits 18, 19, 20, 21, 24 and 25 of the operand become the indicators. The other bits of "
        "its right half become 0.",
        "",
    ),
    data.add: ("{r} becomes {r} plus {o}.", SUMMED),
    data.add_logical: ("{r} becomes {r} plus {o}, both without signs.", LOGICAL),
    data.add_with_carry: ("{r} becomes {r} plus {o}, and 1 more where carry is on.", SUMMED),
    data.subtract: ("{r} becomes {r} less {o}.", SUMMED),
    data.subtract_logical: ("{r} becomes {r} less {o}, both without signs.", LOGICAL),
    data.subtract_with_carry: ("{r} becomes {r} less {o}, and 1 less where carry is off.", SUMMED),
    data.add_one_to_storage: ("{o} plus 1 is written back.", SUMMED),
    data.add_to_storage: ("{r} plus {o} is written back.", SUMMED),
    data.subtract_stored: ("{r} less {o} is written back.", SUMMED),
    data.negate: ("{r} becomes its negative.", NEGATED),
    data.multiply: ("AQ becomes Q times the operand. Both are signed.", TESTED),
    data.divide: (
        "Q becomes Q divided by the operand, cut toward zero, and A the remainder, with the sign "
        "of the dividend. Both are signed. Division by 0, and of the least number by -1, is the "
        "divide check, and changes nothing.",
        TESTED,
    ),
    data.compare: (
        "{r} is compared with {o}. Zero is on where they are equal, and negative where {r} is less "
        "as a signed number.",
        LOGICAL,
    ),
    data.test_word: ("{t} is tested.", TESTED),
    data.test_and_clear: ("{t} is tested, and becomes 0.", TESTED),
    data.compare_masked: (
        "The bits that differ in A and the operand are tested, where they are off in Q.",
        TESTED,
    ),
    data.test_and: ("{r} and {o}, bit by bit, are tested.", TESTED),
    data.test_and_not: ("{r} and the complement of {o}, bit by bit, are tested.", TESTED),
    data.and_register: ("{r} becomes {r} and {o}, bit by bit.", TESTED),
    data.or_register: ("{r} becomes {r} or {o}, bit by bit.", TESTED),
    data.xor_register: ("{r} becomes {r} exclusive or {o}, bit by bit.", TESTED),
    data.and_storage: ("{r} and {o}, bit by bit, is written back.", TESTED),
    data.or_storage: ("{r} or {o}, bit by bit, is written back.", TESTED),
    data.xor_storage: ("{r} exclusive or {o}, bit by bit, is written back.", TESTED),
    data.shift_left: (
        "{r} is shifted left " + COUNT + ". Carry is on where two of the bits that pass bit 0 "
        "differ.",
        LOGICAL,
    ),
    data.shift_right: ("{r} is shifted right " + COUNT + ". Bit 0 is copied in.", TESTED),
    data.shift_right_logical: ("{r} is shifted right " + COUNT + ". Zeros come in.", TESTED),
    data.rotate_left: ("{r} is rotated left " + COUNT + ".", TESTED),
    data.store_where_zero: ("Where {o} is 0 it becomes A. Zero is on where it was.", "zero"),
    data.store_where_equal: (
        "Where {o} is equal to Q it becomes A. Zero is on where it was.", "zero",
    ),
    do_nothing: ("Nothing happens.", ""),
}
# {n} is the digit of the name.
GOES = "Control goes to the final address"
EFFECTS = {
    "EppN": ("PR{n} becomes the final address: its segment, ring, word and bit.", ""),
    "EpbpN": ("PR{n} becomes word 0 of the segment of the final address, in its ring.", ""),
    "SpriN": ("The pair becomes PR{n}, as an ITS pair.", ""),
    "SpbpN": ("The pair becomes PR{n} at word 0 of its segment, as an ITS pair.", ""),
    "Spri": ("The block becomes the eight pointer registers, as ITS pairs.", ""),
    "Lpri": (
        "The eight pointer registers become the pairs of the block. Each gets the greatest of "
        "three rings: that of the final address, that of its pair, and R1 of the segment that "
        "holds the block.",
        "",
    ),
    "LprpN": (
        "PR{n} becomes what the operand means as a packed pointer, in the ring of the final "
        "address. A word whose first two bits are on is a command fault.",
        "",
    ),
    "Epaq": (
        "AQ becomes the final address: the segment in bits 3-17 of A, the ring in bits 33-35, the "
        "word in bits 0-17 of Q, and the bit in bits 30-35.",
        "zero",
    ),
    "Stcd": ("The pair becomes a pointer to the second word from here: where a call returns.", ""),
    "Tra": (f"{GOES}.", ""),
    "Tze": (f"{GOES} where zero is on.", ""),
    "Tnz": (f"{GOES} where zero is off.", ""),
    "Tmi": (f"{GOES} where negative is on.", ""),
    "Tpl": (f"{GOES} where negative is off.", ""),
    "Trc": (f"{GOES} where carry is on.", ""),
    "Tnc": (f"{GOES} where carry is off.", ""),
    "Tmoz": (f"{GOES} where zero or negative is on.", ""),
    "Tpnz": (f"{GOES} where zero and negative are off.", ""),
    "Tov": (f"{GOES} where overflow is on, and overflow goes off.", "overflow"),
    "Ttf": (f"{GOES} where tally runout is off.", ""),
    "TsxN": (f"X{{n}} becomes the word number of the next instruction. {GOES}.", ""),
    "TspN": (f"PR{{n}} becomes a pointer to the next instruction. {GOES}.", ""),
    "Call6": (
        f"{GOES}. The ring becomes the lesser of the ring of the address and R2 of the target: a "
        "call from above R2 enters through a gate. PR7 points to the stack of the ring.",
        "",
    ),
    "Rtcd": (
        "Control goes to where the pair points. The ring becomes the greatest of three: that of "
        "the final address, that of the pair, and R1 of the segment that holds the pair. Each "
        "pointer register gets this ring.",
        "",
    ),
    "Ldbr": ("The descriptor segment base register becomes the pair.", ""),
    "Sdbr": ("The pair becomes the descriptor segment base register.", ""),
    "Absa": ("A becomes the place in core of the final address, in bits 0-23.", TESTED),
    "Cams": ("Nothing happens that can be seen.", ""),
    "Camp": ("Nothing happens that can be seen.", ""),
    "Mme": ("Ends the step in fault 2, master mode entry.", ""),
    "Drl": ("Ends the step in fault 6, derail.", ""),
    "Dis": ("Stops the machine.", ""),
}
# By the form of an operand in effects_data.
FORMS = {
    data.own: "{whole}",
    data.word: "the operand",
    data.lower_half: "bits 18-35 of the operand",
    data.sign_extended: "the operand, with its sign extended",
    data.address: "the word number of the final address",
    data.address_in_upper: "the word number of the final address, in bits 0-17",
    data.nothing: "",
}
WHOLE = {"A": "the operand", "Q": "the operand", "AQ": "the pair", "X": "bits 0-17 of the operand"}
WRITTEN = {
    "W2": "the pair",
    "Wl": "bits 0-17 of the operand",
    "Wr": "bits 18-35 of the operand",
    "Rwl": "bits 0-17 of the operand",
}
# By the operand kind of a row.
KINDS = {
    "R": "Reads a word.",
    "R2": "Reads a pair of words, at an even word number.",
    "R16": "Reads a block of 16 words.",
    "W": "Writes a word.",
    "W2": "Writes a pair of words, at an even word number.",
    "W16": "Writes a block of 16 words.",
    "Wl": "Writes bits 0-17 of a word; the other half stays.",
    "Wr": "Writes bits 18-35 of a word; the other half stays.",
    "Rw": "Reads a word and writes it: it needs both rights.",
    "Rwl": "Reads a word and writes its bits 0-17: it needs both rights.",
    "A": "Uses the address itself, and reads nothing there.",
    "T": "Transfers: the target must be executable in this ring.",
    "Call6": "Calls: the target must be an entry, or executable in this ring.",
    "N": "Forms no address.",
}


def capital(text):
    """A text that begins with a capital letter."""
    return text[:1].upper() + text[1:]


def rule_of(row):
    """The rule of a row of the table."""
    if row.effect in EFFECTS:
        sentence, indicators = EFFECTS[row.effect]
        return Rule(sentence.format(n=row.register), tuple(indicators.split()))
    operation, register, form = DATA[row.effect]
    sentence, indicators = OPERATIONS[operation]
    words = {
        "r": name_of(register, row.register),
        "o": FORMS[form].format(whole=WHOLE[register]),
        "t": WRITTEN.get(row.operand, "the operand"),
    }
    return Rule(capital(sentence.format(**words)), tuple(indicators.split()))


def notes_of(row):
    """What else holds of a row: how it takes its operand, and who may execute it."""
    notes = [KINDS[row.operand]]
    if row.direct:
        notes.append("Takes a direct operand: du or dl.")
    if row.privileged:
        notes.append("Privileged: ring 0 alone, in a segment with p.")
    return notes
