"""What pointer register instructions, transfers, calls, returns and privileged instructions do
(docs/MANUAL.md, sections 9 and 10)."""

from .effect import Effect, EffectRefused, do_nothing
from .fields import HALF_WORD, bits, dbr_of, dbr_words, packed_pointer_of, pair_of, pointer_of
from .registers import Pointer

COMMAND = 5
CALLS = "10"


def pointer_text(pointer):
    return f"{pointer.ring}:{pointer.segment:05o}|{pointer.word:06o} {pointer.bit:02o}"


def load_pointer(given):
    final = given.final
    pointer = Pointer(final.segment, final.ring, final.word, given.bit)
    return pointer_loaded(given, pointer, "the final address")


def load_base_pointer(given):
    pointer = Pointer(given.final.segment, given.final.ring, 0, 0)
    return pointer_loaded(given, pointer, "word 0 of the segment of the final address")


def pointer_loaded(given, pointer, what):
    text = f"PR{given.number} becomes {what}: {pointer_text(pointer)}."
    return Effect(given.registers.with_pr(given.number, pointer), text)


def store_pointer(given):
    text = f"The pair becomes PR{given.number}, as an ITS pair."
    return Effect(given.registers, text, put=pair_of(given.registers.pr[given.number]))


def store_base_pointer(given):
    even, _ = pair_of(given.registers.pr[given.number])
    text = f"The pair becomes PR{given.number} at word 0, as an ITS pair."
    return Effect(given.registers, text, put=(even, 0))


def store_pointers(given):
    words = tuple(word for pointer in given.registers.pr for word in pair_of(pointer))
    return Effect(given.registers, "The block becomes the eight pointer registers.", put=words)


def load_pointers(given):
    found = []
    for number in range(8):
        pointer = pointer_of(*given.words[2 * number : 2 * number + 2])
        ring = max(given.final.ring, given.ring, pointer.ring)
        found.append(pointer._replace(ring=ring))
    text = (
        "The pointer registers become the eight pairs, each in the greatest ring of "
        f"{given.final.ring} so far, R1 = {given.ring} of the segment that holds them, and its own."
    )
    return Effect(given.registers.but(pr=tuple(found)), text)


def load_packed(given):
    if bits(given.words[0], 0, 2) == 3:
        raise EffectRefused(COMMAND, f"The word {given.words[0]:012o} is no packed pointer.")
    pointer = packed_pointer_of(given.words[0], given.final.ring)
    return pointer_loaded(given, pointer, "what the packed pointer means")


def load_address_pair(given):
    a = given.final.segment << 18 | given.final.ring
    q = given.final.word << 18 | given.bit
    indicators = given.registers.indicators._replace(zero=a == 0 and q == 0)
    text = "A and Q become the final address: segment and ring, word and bit number."
    return Effect(given.registers.but(a=a, q=q, indicators=indicators), text)


def store_control(given):
    registers = given.registers
    word = (registers.word + 2) % HALF_WORD
    pair = pair_of(Pointer(registers.segment, registers.ring, word, 0))
    return Effect(registers, "The pair becomes a pointer to the second word from here.", put=pair)


# Transfers.


def is_taken(effect, registers):
    """Whether a transfer is taken, by the indicators."""
    on = registers.indicators
    if effect == "Tze":
        return on.zero
    if effect == "Tnz":
        return not on.zero
    if effect == "Tmi":
        return on.negative
    if effect == "Tpl":
        return not on.negative
    if effect == "Trc":
        return on.carry
    if effect == "Tnc":
        return not on.carry
    if effect == "Tmoz":
        return on.negative or on.zero
    if effect == "Tpnz":
        return not (on.negative or on.zero)
    if effect == "Tov":
        return on.overflow
    if effect == "Ttf":
        return not on.tally
    return True


def goes_to(given, registers, text):
    registers = registers.but(segment=given.final.segment, word=given.final.word)
    return Effect(registers, text, goes=True)


def goes_text(given):
    return f"Control goes to {given.names.word(given.final.segment, given.final.word)}"


def transfer(given):
    return goes_to(given, given.registers, f"{goes_text(given)}.")


def transfer_on_overflow(given):
    indicators = given.registers.indicators._replace(overflow=False)
    registers = given.registers.but(indicators=indicators)
    return goes_to(given, registers, f"{goes_text(given)}, and overflow goes off.")


def transfer_and_set_index(given):
    registers = given.registers.with_x(given.number, given.next_word())
    text = f"{goes_text(given)}; X{given.number} keeps the next word."
    return goes_to(given, registers, text)


def transfer_and_set_pointer(given):
    registers = given.registers
    pointer = Pointer(registers.segment, registers.ring, given.next_word(), 0)
    registers = registers.with_pr(given.number, pointer)
    text = f"{goes_text(given)}; PR{given.number} keeps the next word."
    return goes_to(given, registers, text)


# Calls and returns.


def call(given):
    """CALL6: the ring of the operand is the new ring."""
    registers, ring = given.registers, given.ring
    if ring == registers.ring:
        stack = registers.pr[6].segment
        why = f"the ring stays {ring}, so the stack is the segment of PR6"
    else:
        stack = 8 * registers.dbr.stack + ring
        why = f"the ring goes from {registers.ring} to {ring}, the lesser of {given.final.ring}, "
        why += "the ring of the address, and R2 of the target; its stack is "
        why += given.names.segment(stack)
    registers = registers.with_pr(7, Pointer(stack, ring, 0, 0)).but(ring=ring)
    return goes_to(given, registers, f"{goes_text(given)}: {why}. PR7 points to the stack.")


def return_to(given):
    """RTCD: a return to the ring after its pair."""
    pair = pointer_of(*given.words)
    ring = max(given.final.ring, given.ring, pair.ring)
    pointers = tuple(pointer._replace(ring=ring) for pointer in given.registers.pr)
    registers = given.registers.but(
        pr=pointers, segment=pair.segment, word=pair.word, ring=ring
    )
    text = (
        f"Control goes to {given.names.word(pair.segment, pair.word)} in ring {ring}: the ring is "
        f"the greatest of {given.final.ring} so far, {pair.ring} in the pair, and "
        f"R1 = {given.ring} of the segment that holds the pair. Each pointer register gets ring "
        f"{ring}."
    )
    return Effect(registers, text, goes=True)


# Privileged instructions.


def load_dbr(given):
    registers = given.registers.but(dbr=dbr_of(*given.words))
    return Effect(registers, "The descriptor segment base register becomes the pair.")


def store_dbr(given):
    text = "The pair becomes the descriptor segment base register."
    return Effect(given.registers, text, put=dbr_words(given.registers.dbr))


def load_absolute_address(given):
    """ABSA. In a booted system the place in core is not known."""
    if given.core is None:
        text = "A becomes the place in core, in bits 0-23; in which frame the page is, is free."
        return Effect(given.registers, text)
    value = given.core << 12
    indicators = given.registers.indicators._replace(
        zero=value == 0, negative=bool(value >> 35)
    )
    registers = given.registers.but(a=value, indicators=indicators)
    return Effect(registers, f"A becomes the place in core, {given.core:08o}, in bits 0-23.")


CONTROL = {
    "EppN": load_pointer,
    "EpbpN": load_base_pointer,
    "SpriN": store_pointer,
    "SpbpN": store_base_pointer,
    "Spri": store_pointers,
    "Lpri": load_pointers,
    "LprpN": load_packed,
    "Epaq": load_address_pair,
    "Stcd": store_control,
    "Tra": transfer,
    "Tze": transfer,
    "Tnz": transfer,
    "Tmi": transfer,
    "Tpl": transfer,
    "Trc": transfer,
    "Tnc": transfer,
    "Tmoz": transfer,
    "Tpnz": transfer,
    "Tov": transfer_on_overflow,
    "Ttf": transfer,
    "TsxN": transfer_and_set_index,
    "TspN": transfer_and_set_pointer,
    "Call6": call,
    "Rtcd": return_to,
    "Ldbr": load_dbr,
    "Sdbr": store_dbr,
    "Cams": do_nothing,
    "Camp": do_nothing,
    "Absa": load_absolute_address,
}
