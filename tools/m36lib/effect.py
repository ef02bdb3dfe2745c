"""What an effect is given, and what it gives."""

from typing import NamedTuple

from .account import Place
from .names import Names
from .registers import Registers
from .working import name_of, text_of, value_of, with_value


class Given(NamedTuple):
    """What an effect is given: the registers, the register it works on with its number, the value
    of its operand, the words that were read, the final address with its bit number, the ring that a
    target or the segment of the words gives, a place in core or None, and names for places."""

    registers: Registers
    register: str
    number: int
    operand: int
    words: tuple
    final: Place
    bit: int
    ring: int
    core: int
    names: Names

    def own(self):
        """The value of the register."""
        return value_of(self.register, self.number, self.registers)

    def name(self):
        return name_of(self.register, self.number)

    def text(self, value):
        return text_of(self.register, value)

    def becoming(self, value):
        """The registers with this value in the register."""
        return with_value(self.register, self.number, self.registers, value)

    def next_word(self):
        return (self.registers.word + 1) % (1 << 18)


class Effect(NamedTuple):
    """What an effect gives: the registers, what it does in words, the words to write, whether it
    puts overflow on, and whether it has set the place of the next instruction itself."""

    registers: Registers
    text: str
    put: tuple = ()
    overflow: bool = False
    goes: bool = False


def do_nothing(given):
    return Effect(given.registers, "Nothing changes.")


class EffectRefused(Exception):
    """An effect that ends in a fault of this number at the instruction."""

    def __init__(self, number, text):
        super().__init__(text)
        self.number = number
        self.text = text
