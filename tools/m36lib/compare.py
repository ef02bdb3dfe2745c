"""Holds the account of a step against what the machine did."""

from .registers import LETTERS

UNKNOWN = "unknown"
FIELDS = ("number", "ring", "place", "instruction", "final", "a", "q", "indicators", "outcome")


def fields_of(trace):
    """The fields of a trace line, by their names."""
    return dict(zip(FIELDS, trace.split(" ", 8)))


def trace_differences(account, trace):
    """Where the trace line differs from the account: the instruction, the final address and the
    outcome."""
    if account.outcome.kind == UNKNOWN:
        return []
    fields = fields_of(trace)
    word = "-" if account.word is None else f"{account.word:012o}"
    pairs = (
        ("instruction", word, fields["instruction"]),
        ("final address", account.final_text(), fields["final"]),
        ("outcome", account.outcome.trace_text(), fields["outcome"]),
    )
    return [f"{what} {found}, not {said}" for what, said, found in pairs if said != found]


def register_pairs(expected, found):
    """Each register with what the account says and what the machine has."""
    yield "A", expected.a, found.a
    yield "Q", expected.q, found.q
    for number in range(8):
        yield f"X{number}", expected.x[number], found.x[number]
        yield f"PR{number}", expected.pr[number].text(), found.pr[number].text()
    for letter, one, other in zip(LETTERS, expected.indicators, found.indicators):
        yield f"indicator {letter}", one, other
    yield "ring", expected.ring, found.ring
    yield "segment", expected.segment, found.segment
    yield "word", expected.word, found.word


def register_differences(account, after):
    """Where the registers after the step are not those of the account."""
    expected = account.after
    if account.outcome.kind == UNKNOWN:
        return []
    if account.unknown:
        expected = expected.but(a=after.a, indicators=after.indicators)
    if expected == after:
        return []
    return [
        f"{name} {shown(found)}, not {shown(said)}"
        for name, said, found in register_pairs(expected, after)
        if said != found
    ]


def shown(value):
    return f"{value:o}" if isinstance(value, int) else str(value)


def word_differences(account, contents):
    """Where the words after the step are not those of the account. A word that is not to be seen
    after the step counts as none."""
    found = []
    for change, content in zip(account.words, contents):
        if content is not None and content != change.after:
            place = f"{change.segment:05o}|{change.word:06o}"
            found.append(f"word {place} {content:012o}, not {change.after:012o}")
    return found


def console_differences(service, written):
    """Where what the console wrote is not what the account says; None for nothing."""
    expected = service.written if service else None
    if service and service.written is None and service.refusal is None:
        return []
    return [] if written == expected else [f"console {written!r}, not {expected!r}"]
