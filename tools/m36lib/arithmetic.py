"""Arithmetic on numbers of 18, 36 or 72 bits (docs/MANUAL.md, section 9)."""

from typing import NamedTuple

from .fields import signed


class Result(NamedTuple):
    """A value of `width` bits with its carry, and whether overflow is put on."""

    value: int
    carry: bool
    overflow: bool


def in_range(number, width):
    return -(1 << width - 1) <= number < 1 << width - 1


def total(width, x, y, carry_in=0):
    """A sum, with 1 more where carry_in is 1."""
    true = signed(x, width) + signed(y, width) + carry_in
    carry = x + y + carry_in >= 1 << width
    return Result(true % (1 << width), carry, not in_range(true, width))


def difference(width, x, y, borrow=0):
    """A difference, with 1 less where borrow is 1."""
    true = signed(x, width) - signed(y, width) - borrow
    return Result(true % (1 << width), x >= y + borrow, not in_range(true, width))


def product(x, y):
    return signed(x, 36) * signed(y, 36) % (1 << 72)


def is_divide_check(dividend, divisor):
    return divisor == 0 or (dividend == 1 << 35 and divisor == (1 << 36) - 1)


def quotient(dividend, divisor):
    """The quotient cut toward zero, and the remainder with the sign of the dividend."""
    x, y = signed(dividend, 36), signed(divisor, 36)
    cut = abs(x) // abs(y)
    cut = cut if (x < 0) == (y < 0) else -cut
    return cut % (1 << 36), (x - cut * y) % (1 << 36)


def left_shift(width, value, count):
    return (value << count) % (1 << width)


def left_shift_carry(width, value, count):
    """Two of the bits that pass bit 0, itself included, differ."""
    passed = (value << count + 1) >> width
    return passed not in (0, (1 << count + 1) - 1)


def copying_right_shift(width, value, count):
    return (signed(value, width) >> count) % (1 << width)


def rotation(width, value, count):
    count %= width
    return (value << count | value >> width - count) % (1 << width)
