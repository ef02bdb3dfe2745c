"""What data instructions do (docs/MANUAL.md, section 9): loads, stores, sums, products,
comparisons, boolean operations and shifts.

Each effect has an operation, the register that it works on, and the form of its operand."""

from . import arithmetic
from .effect import Effect, EffectRefused
from .fields import is_on, lower
from .registers import Indicators
from .working import WIDTHS, operand_of, words_of

DIVIDE_CHECK = 14
SHIFTS = 128


# The forms of an operand, from the register, the words that were read and the final address.


def own(register, words, final):
    return operand_of(register, words)


def word(register, words, final):
    return words[0]


def lower_half(register, words, final):
    return lower(words[0])


def sign_extended(register, words, final):
    return words[0] if words[0] < 1 << 35 else words[0] + (1 << 72) - (1 << 36)


def address(register, words, final):
    return final.word


def address_in_upper(register, words, final):
    return final.word << 18


def nothing(register, words, final):
    return None


# Indicators.


def width_of(given):
    return WIDTHS[given.register]


def tested(indicators, width, value):
    """Zero and negative as a value of this width has them."""
    return indicators._replace(zero=value == 0, negative=bool(value >> width - 1))


def overflowed(indicators, result):
    return indicators._replace(overflow=indicators.overflow or result.overflow)


def with_indicators(registers, indicators):
    return registers.but(indicators=indicators)


def becomes(given, value, text):
    """The register becomes a value, which zero and negative describe."""
    indicators = tested(given.registers.indicators, width_of(given), value)
    return Effect(with_indicators(given.becoming(value), indicators), text)


def summed(given, result, value_text, has_overflow=True):
    """The register becomes a sum or a difference."""
    indicators = tested(given.registers.indicators, width_of(given), result.value)
    indicators = indicators._replace(carry=result.carry)
    if has_overflow:
        indicators = overflowed(indicators, result)
    text = f"{given.name()} becomes {value_text}: {given.text(result.value)}."
    registers = with_indicators(given.becoming(result.value), indicators)
    return Effect(registers, text, overflow=has_overflow and result.overflow)


def into_operand(given, result, value_text):
    """The operand becomes a sum or a difference."""
    indicators = tested(given.registers.indicators, width_of(given), result.value)
    indicators = overflowed(indicators._replace(carry=result.carry), result)
    return Effect(
        with_indicators(given.registers, indicators),
        f"The operand becomes {value_text}: {given.text(result.value)}.",
        put=words_of(given.register, result.value),
        overflow=result.overflow,
    )


# Loads.


def load(given):
    return becomes(given, given.operand, f"{given.name()} becomes {given.text(given.operand)}.")


def negative_of(given, value, what):
    result = arithmetic.difference(width_of(given), 0, value)
    indicators = tested(given.registers.indicators, width_of(given), result.value)
    text = f"{given.name()} becomes the negative of {what}: {given.text(result.value)}."
    registers = with_indicators(given.becoming(result.value), overflowed(indicators, result))
    return Effect(registers, text, overflow=result.overflow)


def load_complement(given):
    return negative_of(given, given.operand, given.text(given.operand))


def load_and_clear(given):
    return load(given)._replace(put=(0,), text=load(given).text + " The operand becomes 0.")


def load_indicators(given):
    found = Indicators(*(is_on(given.operand, bit) for bit in (18, 19, 20, 21, 24, 25)))
    registers = with_indicators(given.registers, found)
    return Effect(registers, "The indicators become their bits of the operand.")


# Stores.


def store(given):
    value = given.own()
    text = f"The operand becomes {given.name()}: {given.text(value)}."
    return Effect(given.registers, text, put=words_of(given.register, value))


def store_zero(given):
    return Effect(given.registers, "The operand becomes 0.", put=(0,))


def store_indicators(given):
    on = given.registers.indicators
    half = sum(bit << shift for bit, shift in zip(on, (17, 16, 15, 14, 11, 10)))
    text = "The right half of the operand becomes the indicators."
    return Effect(given.registers, text, put=(half,))


def store_where(given, holds, what):
    indicators = given.registers.indicators._replace(zero=holds)
    value = given.registers.a if holds else given.operand
    text = f"The operand {'is' if holds else 'is not'} {what}, so it "
    text += "becomes A." if holds else "is written back as it is."
    return Effect(with_indicators(given.registers, indicators), text, put=(value,))


def store_where_zero(given):
    return store_where(given, given.operand == 0, "0")


def store_where_equal(given):
    return store_where(given, given.operand == given.registers.q, "equal to Q")


# Sums and differences.


def added_text(given):
    return f"{given.text(given.own())} plus {given.text(given.operand)}"


def less_text(given):
    return f"{given.text(given.own())} less {given.text(given.operand)}"


def add(given):
    result = arithmetic.total(width_of(given), given.own(), given.operand)
    return summed(given, result, added_text(given))


def add_logical(given):
    result = arithmetic.total(width_of(given), given.own(), given.operand)
    return summed(given, result, added_text(given), has_overflow=False)


def add_with_carry(given):
    carry = int(given.registers.indicators.carry)
    result = arithmetic.total(width_of(given), given.own(), given.operand, carry)
    return summed(given, result, added_text(given) + f" plus carry, {carry}")


def subtract(given):
    result = arithmetic.difference(width_of(given), given.own(), given.operand)
    return summed(given, result, less_text(given))


def subtract_logical(given):
    result = arithmetic.difference(width_of(given), given.own(), given.operand)
    return summed(given, result, less_text(given), has_overflow=False)


def subtract_with_carry(given):
    borrow = 1 - given.registers.indicators.carry
    result = arithmetic.difference(width_of(given), given.own(), given.operand, borrow)
    return summed(given, result, less_text(given) + f" less {borrow}, as carry is")


def add_one_to_storage(given):
    result = arithmetic.total(36, given.operand, 1)
    return into_operand(given, result, f"{given.operand:012o} plus 1")


def add_to_storage(given):
    result = arithmetic.total(width_of(given), given.own(), given.operand)
    return into_operand(given, result, added_text(given))


def subtract_stored(given):
    result = arithmetic.difference(width_of(given), given.own(), given.operand)
    return into_operand(given, result, less_text(given))


def negate(given):
    return negative_of(given, given.own(), given.text(given.own()))


# Products.


def multiply(given):
    value = arithmetic.product(given.registers.q, given.operand)
    return becomes(given, value, f"AQ becomes Q times {given.operand:012o}: {value:024o}.")


def divide(given):
    if arithmetic.is_divide_check(given.registers.q, given.operand):
        raise EffectRefused(DIVIDE_CHECK, f"Q can't be divided by {given.operand:012o}.")
    value, rest = arithmetic.quotient(given.registers.q, given.operand)
    indicators = tested(given.registers.indicators, 36, value)
    text = f"Q becomes Q divided by {given.operand:012o}, and A the remainder."
    return Effect(given.registers.but(a=rest, q=value, indicators=indicators), text)


# Comparisons, which change indicators alone, but for SZNC.


def compare(given):
    width, x, y = width_of(given), given.own(), given.operand
    indicators = given.registers.indicators._replace(
        zero=x == y,
        negative=arithmetic.signed(x, width) < arithmetic.signed(y, width),
        carry=arithmetic.difference(width, x, y).carry,
    )
    text = f"{given.name()}, {given.text(x)}, is compared with {given.text(y)}."
    return Effect(with_indicators(given.registers, indicators), text)


def test(given, value, what):
    indicators = tested(given.registers.indicators, width_of(given), value)
    return Effect(with_indicators(given.registers, indicators), f"{what} is tested.")


def test_word(given):
    return test(given, given.operand, f"The word {given.operand:012o}")


def test_and_clear(given):
    effect = test_word(given)
    return effect._replace(put=(0,), text=effect.text + " The operand becomes 0.")


def compare_masked(given):
    differs = (given.registers.a ^ given.operand) & ~given.registers.q
    return test(given, differs, "The difference of A and the word, at the bits that Q has off,")


def test_and(given):
    value = given.own() & given.operand
    return test(given, value, f"{given.name()} and {given.text(given.operand)}, bit by bit,")


def test_and_not(given):
    value = given.own() & ~given.operand
    return test(given, value, f"{given.name()} and not {given.text(given.operand)}, bit by bit,")


# Boolean operations.


def bit_by_bit(given, value, how):
    text = f"{given.name()} becomes {given.name()} {how} {given.text(given.operand)}, bit by bit."
    return becomes(given, value, text)


def and_register(given):
    return bit_by_bit(given, given.own() & given.operand, "and")


def or_register(given):
    return bit_by_bit(given, given.own() | given.operand, "or")


def xor_register(given):
    return bit_by_bit(given, given.own() ^ given.operand, "exclusive or")


def bits_to_storage(given, value, how):
    indicators = tested(given.registers.indicators, width_of(given), value)
    text = f"The operand becomes {given.name()} {how} the operand, bit by bit: {given.text(value)}."
    registers = with_indicators(given.registers, indicators)
    return Effect(registers, text, put=words_of(given.register, value))


def and_storage(given):
    return bits_to_storage(given, given.own() & given.operand, "and")


def or_storage(given):
    return bits_to_storage(given, given.own() | given.operand, "or")


def xor_storage(given):
    return bits_to_storage(given, given.own() ^ given.operand, "exclusive or")


# Shifts. The count is the address modulo 128.


def shifted(given, value, how):
    count = given.final.word % SHIFTS
    return becomes(given, value, f"{given.name()} is {how} by {count}: {given.text(value)}.")


def shift_left(given):
    width, count = width_of(given), given.final.word % SHIFTS
    carry = arithmetic.left_shift_carry(width, given.own(), count)
    effect = shifted(given, arithmetic.left_shift(width, given.own(), count), "shifted left")
    indicators = effect.registers.indicators._replace(carry=carry)
    return effect._replace(registers=with_indicators(effect.registers, indicators))


def shift_right(given):
    count = given.final.word % SHIFTS
    value = arithmetic.copying_right_shift(width_of(given), given.own(), count)
    return shifted(given, value, "shifted right, with its first bit copied in,")


def shift_right_logical(given):
    return shifted(given, given.own() >> given.final.word % SHIFTS, "shifted right")


def rotate_left(given):
    count = given.final.word % SHIFTS
    value = arithmetic.rotation(width_of(given), given.own(), count)
    return shifted(given, value, "rotated left")
