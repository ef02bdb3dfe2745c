"""The registers that instructions work on: A, Q, both as one number of 72 bits, and X0 to X7."""

from .fields import WORD, upper

WIDTHS = {"A": 36, "Q": 36, "AQ": 72, "X": 18}


def value_of(register, number, registers):
    if register == "A":
        return registers.a
    if register == "Q":
        return registers.q
    if register == "AQ":
        return registers.a << 36 | registers.q
    return registers.x[number]


def with_value(register, number, registers, value):
    if register == "A":
        return registers.but(a=value)
    if register == "Q":
        return registers.but(q=value)
    if register == "AQ":
        return registers.but(a=value >> 36, q=value % WORD)
    return registers.with_x(number, value)


def operand_of(register, words):
    """The operand in the width of the register: the word, the pair, or bits 0-17 of the word."""
    if register == "AQ":
        return words[0] << 36 | words[1]
    return upper(words[0]) if register == "X" else words[0]


def words_of(register, value):
    """The words, or the half of a word, that hold a value of the register's width."""
    return (value >> 36, value % WORD) if register == "AQ" else (value,)


def name_of(register, number):
    return f"X{number}" if register == "X" else register


def text_of(register, value):
    return f"{value:0{WIDTHS[register] // 3}o}"
