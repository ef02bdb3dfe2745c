"""The references of a step: each a question to the tables, and its answer (docs/MANUAL.md,
sections 5 and 6)."""

from . import rights
from .account import Place, Reference
from .memory import ACCESS, FIRST_DIRECTED, NoAccess, check_bound

VERBS = {
    "fetch": "execute",
    "indirect": "read",
    "read": "read",
    "write": "write",
    "transfer": "go to",
    "call": "call",
}
TARGETS = ("transfer", "call")
READERS = ("fetch", "indirect", "read")
FAULT_NAMES = {
    1: "store fault",
    2: "MME",
    3: "fault tag 1",
    5: "command",
    6: "DRL",
    7: "lockup",
    10: "illegal procedure",
    13: "overflow",
    14: "divide check",
    24: "fault tag 2",
    25: "fault tag 3",
}


class Refused(Exception):
    """The step ends here in a fault, or stops."""

    def __init__(self, outcome):
        super().__init__(outcome.text)
        self.outcome = outcome


class References:
    """Makes the references of one step in its order, and writes them into its account."""

    def __init__(self, registers, memory, account, names):
        self.registers = registers
        self.memory = memory
        self.account = account
        self.names = names
        self.claims = []
        self.link = None

    def ask(self, kind, place, count=1, pending=(), silent=False):
        """The descriptor of the segment, and the words that are read or the spots that are claimed.
        A silent reference has no sentence of its own unless it is refused.

        Raises NoAccess, after the refusal is written into the account."""
        registers = self.registers
        asked = place
        try:
            sdw = self.memory.descriptor(registers.dbr, place.segment)
            why = self.allow(kind, sdw, place)
            spots = []
            for number in range(place.word, place.word + (1 if kind in TARGETS else count)):
                asked = Place(place.ring, place.segment, number)
                check_bound(sdw, number)
                if kind not in TARGETS:
                    spots.append(self.memory.spot(sdw, place.segment, number))
        except NoAccess as refusal:
            refusal.place = asked
            self.write(kind, place, count, refusal.why, refusal)
            raise
        if kind == "locate":
            why = self.memory.place_text(spots[0])
        self.write(kind, place, count, why, None, silent)
        if kind in READERS or kind == "write":
            self.touch(kind, sdw, place)
        if kind in READERS:
            return sdw, self.read(spots, place, pending)
        return sdw, spots

    def allow(self, kind, sdw, place):
        """Why the rights allow the reference; raises where they don't."""
        registers = self.registers
        same = place.segment == registers.segment
        number, why = rights.answer(kind, sdw, place.ring, registers.ring, same, place.word)
        if number is not None:
            raise NoAccess(ACCESS, number, why, rights.RULE)
        return why

    def touch(self, kind, sdw, place):
        self.memory.mark(
            self.registers.dbr, sdw, place.segment, place.word, modified=kind == "write"
        )
        page = (place.segment, place.word // 1024)
        if page not in self.account.pages:
            self.account.pages.append(page)

    def read(self, spots, place, pending):
        """The words at the spots, with the pending words in their place."""
        later = dict(pending)
        words = []
        for number, spot in enumerate(spots):
            word = later.get(spot)
            if word is None:
                word = self.memory.content(spot, place.segment, place.word + number)
            words.append(word)
        return words

    def write(self, kind, place, count, why, refusal, silent=False):
        """Writes the question and its answer into the account."""
        reference = Reference(
            kind=kind,
            place=place,
            count=count,
            question=self.question(kind, place, count),
            answer=answer_text(kind, why, refusal),
            allowed=refusal is None,
            rule=refusal.rule if refusal else rights.RULE if kind != "locate" else "5",
            link=self.link,
            fault=refusal.number if refusal else None,
            violation=refusal.violation if refusal else None,
            refused_at=refusal.place if refusal else None,
        )
        self.account.references.append(reference)
        if not silent:
            text = f"{reference.question} {reference.answer}"
            self.account.say(text, reference.rule, "reference")

    def question(self, kind, place, count):
        if kind == "locate":
            return f"Where in core is {self.names.word(place.segment, place.word)}?"
        if kind == "fetch":
            what = self.names.segment(place.segment)
        else:
            what = self.names.word(place.segment, place.word)
        if count > 1:
            what = f"the {count} words from {what} on"
        return f"May ring {place.ring} {VERBS[kind]} {what}?"


def answer_text(kind, why, refusal):
    if refusal is None:
        return f"{why}." if kind == "locate" else f"Yes: {why}."
    return f"No, {fault_name(refusal.number, refusal.violation)}: {refusal.why}."


def fault_name(number, violation):
    if number == ACCESS:
        return f"access violation {violation}"
    return FAULT_NAMES.get(number) or f"directed fault {number - FIRST_DIRECTED}"
