"""Tests of the rules that are shown on hover: they hold of the account of steps, which is compared
with the machine elsewhere."""

import random

from m36lib.account import Place
from m36lib.effect import EffectRefused, Given
from m36lib.effects_control import CONTROL
from m36lib.effects_table import DATA
from m36lib.explain import READS
from m36lib.hover_words import modifier_words
from m36lib.names import PLAIN
from m36lib.registers import Dbr, Indicators, Pointer, Registers
from m36lib.rule_words import KINDS, notes_of, rule_of
from m36lib.table import TABLE

LEAST_DRAWS, MOST_DRAWS = 60, 4000
WORDS = (0, 1, 1 << 35, (1 << 36) - 1, 0o400000, 0o777777, 0o377777777777)


def a_word(draw):
    """A word: one at an edge, or any."""
    return draw.choice((*WORDS, draw.getrandbits(36), draw.getrandbits(36)))


def a_given(draw, row):
    """What the effect of a row may be given."""
    pointer = Pointer(draw.getrandbits(15), draw.randrange(8), draw.getrandbits(18), 0)
    registers = Registers(
        a=a_word(draw), q=a_word(draw),
        x=tuple(a_word(draw) >> 18 for _ in range(8)), pr=(pointer,) * 8,
        indicators=Indicators(*(draw.random() < 0.5 for _ in range(6))),
        ring=4, segment=0o100, word=draw.getrandbits(18), dbr=Dbr(0, 127, True, 1))
    words = tuple(a_word(draw) for _ in range(READS.get(row.operand, 1)))
    final = draw.choice((Place(0, 0, 0), Place(4, 0o100, draw.getrandbits(18))))
    operation, register, form = DATA.get(row.effect, (CONTROL.get(row.effect), None, None))
    operand = form(register, words, final) if form else None
    return operation, Given(registers, register, row.register, operand, words, final, 0, 4,
                            draw.choice((0, draw.getrandbits(24))), PLAIN)


def changed_by(row, draw):
    """The indicators that the effect of a row changes in some state. It is drawn until those of the
    rule are found, and some more times."""
    found, said = set(), set(rule_of(row).indicators)
    for count in range(MOST_DRAWS):
        operation, given = a_given(draw, row)
        try:
            after = operation(given).registers.indicators
        except EffectRefused:
            continue
        before = given.registers.indicators
        found |= {name for name in before._fields if getattr(before, name) != getattr(after, name)}
        if count > LEAST_DRAWS and found >= said:
            break
    return found


def indicators(_program):
    """The indicators of each rule are those that the account changes."""
    draw = random.Random(1)
    wrong = []
    for row in {row.effect: row for row in TABLE.values()}.values():
        if row.effect not in DATA and row.effect not in CONTROL:
            found = set()
        else:
            found = changed_by(row, draw)
        said = set(rule_of(row).indicators)
        if found != said:
            wrong.append(f"{row.name}: the rule names {sorted(said)}, and {sorted(found)} change")
    return wrong


def whole(_program):
    """Each instruction has a rule with no hole in it, and each modifier words."""
    wrong = []
    for row in TABLE.values():
        text = " ".join([rule_of(row).sentence, *notes_of(row)])
        if "{" in text or "  " in text or not text.endswith("."):
            wrong.append(f"{row.name}: {text}")
    wrong += [f"no words for {kind}" for kind in {it.operand for it in TABLE.values()} - set(KINDS)]
    registers = "n au qu du ic al ql dl x0 x1 x2 x3 x4 x5 x6 x7 0 1 2 3 4 5 6 7".split()
    modifiers = ["*", *"i id di ad sd".split(), *registers, *(f"{it}*" for it in registers),
                 *(f"*{it}" for it in registers)]
    wrong += [f"no words for the modifier {it}" for it in modifiers if not modifier_words(it)]
    return wrong + [f"words for {it}" for it in ("x8", "**", "", "8") if modifier_words(it)]


TESTS = (indicators, whole)
