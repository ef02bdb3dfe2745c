"""Conditions of breakpoints, and values to print.

    x2 == 6       a != 0 && pr2.segment == 14       [stack_4|146] == 0       negative

Registers are a, q, x0 to x7, pr0.segment, .ring, .word, .bit, and ring, segment, word (those of the
next instruction), step, and the indicators zero, negative, carry, overflow, mask, tally. A `$`
before a register may be written. `[PLACE]` is the word at a place. Numbers are octal; with a point
after them they are decimal. Operators: + - & | (bits), == != < <= > >=, ! && ||, and `=` for `==`.
Words are unsigned."""

import re

from .places import NoPlace, number_of

TOKEN = re.compile(
    r"\s*(\[[^\]]*\]|\$?[A-Za-z][A-Za-z0-9_.]*|[0-9]+\.?|==|!=|<=|>=|&&|\|\||[-+&|<>=!()])"
)
INDICATORS = ("zero", "negative", "carry", "overflow", "mask", "tally")
COMPARED = {
    "==": lambda one, other: one == other,
    "=": lambda one, other: one == other,
    "!=": lambda one, other: one != other,
    "<": lambda one, other: one < other,
    "<=": lambda one, other: one <= other,
    ">": lambda one, other: one > other,
    ">=": lambda one, other: one >= other,
}
ADDED = {
    "+": lambda one, other: one + other,
    "-": lambda one, other: one - other,
    "&": lambda one, other: one & other,
    "|": lambda one, other: one | other,
}


OPERATORS = "+ - & | == != < <= > >= ! && ||"
OTHER_OPERATORS = "*/%^~?"
OF_NUMBERS = "numbers are octal, or decimal with a point after them, as 18."
NO_NUMBER = re.compile(r"\s*([0-9]+[A-Za-z_]\w*)")


class BadCondition(Exception):
    """The text is no expression; says why."""


def tokens_of(text):
    tokens, at = [], 0
    text = text.rstrip()
    while at < len(text):
        wrong = NO_NUMBER.match(text, at)
        if wrong:
            raise BadCondition(f"{wrong[1]} is no number: {OF_NUMBERS}")
        found = TOKEN.match(text, at)
        if not found:
            raise BadCondition(why_unread(text[at:].strip()))
        tokens.append(found[1])
        at = found.end()
    return tokens


def why_unread(text):
    if text[0] == "[":
        return f"a ] is missing after {text}"
    if text[0] in OTHER_OPERATORS:
        return f"there is no operator {text[0]}; there are {OPERATORS}"
    return f"{text} cannot be read"


def register_value(name):
    """How a register is read of a view, or None where there is none of that name."""
    if name in ("a", "q", "ring", "segment", "word"):
        return lambda view: getattr(view.registers, name)
    if name in ("ic", "pc"):
        return lambda view: view.registers.word
    if name == "step":
        return lambda view: view.step
    if name in INDICATORS:
        return lambda view: int(getattr(view.registers.indicators, name))
    if re.fullmatch("x[0-7]", name):
        return lambda view: view.registers.x[int(name[1])]
    if re.fullmatch(r"pr[0-7]\.(segment|ring|word|bit)", name):
        number, part = int(name[2]), name[4:]
        return lambda view: getattr(view.registers.pr[number], part)
    return None


class Condition:
    """An expression. `value(view)` is its value where a view is, and `holds(view)` whether that is
    not 0."""

    def __init__(self, text, places):
        self.text = text.strip()
        self.places = places
        self.tokens = tokens_of(text)
        self.at = 0
        self.read = self.either()
        if self.at < len(self.tokens):
            raise BadCondition(f"{self.tokens[self.at]} is not expected after the expression")

    def value(self, view):
        return self.read(view)

    def holds(self, view):
        """False also where a word is not there."""
        try:
            return bool(self.read(view))
        except BadCondition:
            return False

    def next_is(self, *expected):
        if self.at < len(self.tokens) and self.tokens[self.at] in expected:
            self.at += 1
            return self.tokens[self.at - 1]
        return None

    def either(self):
        one = self.both()
        while self.next_is("||"):
            one = joined(one, self.both(), lambda view, a, b: int(bool(a(view)) or bool(b(view))))
        return one

    def both(self):
        one = self.compared()
        while self.next_is("&&"):
            one = joined(
                one, self.compared(), lambda view, a, b: int(bool(a(view)) and bool(b(view)))
            )
        return one

    def compared(self):
        one = self.added()
        operator = self.next_is(*COMPARED)
        if operator:
            compare = COMPARED[operator]
            one = joined(one, self.added(), lambda view, a, b: int(compare(a(view), b(view))))
        return one

    def added(self):
        one = self.single()
        while operator := self.next_is(*ADDED):
            one = combined(one, self.single(), ADDED[operator])
        return one

    def single(self):
        if self.next_is("!"):
            inner = self.single()
            return lambda view: int(not inner(view))
        if self.next_is("("):
            inner = self.either()
            if not self.next_is(")"):
                raise BadCondition("a ) is missing")
            return inner
        if self.at == len(self.tokens):
            raise BadCondition("the expression is not whole")
        self.at += 1
        return self.leaf(self.tokens[self.at - 1])

    def leaf(self, token):
        if token[0].isdecimal():
            number = self.number(token)
            return lambda view: number
        if token[0] == "[":
            return lambda view: self.word(view, token[1:-1])
        if not token[0].isalpha() and token[0] != "$":
            unary = "; there is no unary minus: write 0 - 1" if token == "-" else ""
            raise BadCondition(f"a value is expected before {token}{unary}")
        found = register_value(token.removeprefix("$"))
        if found is None:
            raise BadCondition(f"{token} is no register; a word of memory is as [main|10]")
        return found

    def number(self, token):
        try:
            return number_of(token)
        except NoPlace as why:
            raise BadCondition(str(why)) from None

    def word(self, view, text):
        try:
            found = view.word_at(*self.places.find(text, view))
        except NoPlace as why:
            raise BadCondition(str(why)) from None
        if found is None:
            raise BadCondition(f"there is no word at {text}")
        return found


def joined(one, other, join):
    return lambda view: join(view, one, other)


def combined(one, other, operation):
    return lambda view: operation(one(view), other(view)) % (1 << 36)
