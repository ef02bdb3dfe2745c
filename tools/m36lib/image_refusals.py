"""What is wrong in bare images and texts of processes: I1 to I3, P1 and P2, in words."""

from m36lib.line_forms import AT, IMAGE, PROCESSES, Finding, column_of, malformed, number
from m36lib.shown import quoted

FRAME = 1024
MOST_PROCESSES = 8
MOST_EVENTS = 10_000_000

PROCESS_FOLLOWERS = {
    None: ("core",),
    "core": ("process",),
    "process": ("process", "at", "turns"),
    "at": ("at", "turns"),
    "turns": ("turns",),
}


def missing(text, place, expected):
    """A line that the text ends without."""
    last = text.line(len(text.lines))
    after = f"after the line {quoted(last)}" if last is not None else "before its first line"
    return Finding(f'line {place} is missing: the text ends {after}; expected "{expected}"')


def misplaced(line, expected):
    """A line that has its form and is out of order."""
    return Finding(f'the line {quoted(line)} is out of order; expected "{expected}"', 1)


def image_line_refused(text, place):
    """I1."""
    expected = IMAGE[min(place, 4) - 1]
    line = text.line(place)
    if line is None:
        return missing(text, place, expected)
    found = malformed(line, IMAGE, text.has_line_feed(place))
    return found or misplaced(line, expected)


def frames_refused(text, place):
    """I2."""
    words = text.line(place).split(" ")
    return Finding(
        f"{quoted(words[1])} frames of core; expected a decimal number from 1 to 16384",
        column_of(words, 1),
    )


def size_of(text):
    """How many words core has, by the first line."""
    return FRAME * number(text.line(1).split(" ")[1])


def at_refused(text, place):
    """What is wrong with the addresses of an `at` line, or None."""
    words = text.line(place).split(" ")
    first = int(words[1], 8)
    earlier = 0
    for above in range(1, place):
        other = text.line(above).split(" ")
        if other[0] == "at":
            earlier = int(other[1], 8) + len(other) - 2
    if first < earlier:
        return Finding(
            f"the address {quoted(words[1])} is not above {earlier - 1:08o}, which an earlier line "
            f"has, so the addresses do not rise; expected {AT}",
            column_of(words, 1),
        )
    if first + len(words) - 2 > size_of(text):
        return Finding(
            f"the words from {quoted(words[1])} on leave core, which ends at "
            f"{size_of(text) - 1:08o}; expected {AT}",
            column_of(words, 1),
        )
    return None


def process_count(text, place):
    """How many process lines are above a line."""
    return sum(text.line(n).startswith("process ") for n in range(1, place))


def events_with(text, place):
    """How many events the turns lines make, up to a line."""
    lines = (text.line(n).split(" ") for n in range(1, place + 1))
    return sum(number(words[1]) * (len(words) - 2) for words in lines if words[0] == "turns")


def process_order(text, place, expected):
    """What is wrong with a line that has its form: its place, or a count."""
    line = text.line(place)
    kind = line.split(" ")[0]
    above = text.line(place - 1)
    if kind not in PROCESS_FOLLOWERS[above.split(" ")[0] if above is not None else None]:
        return misplaced(line, expected)
    if kind == "process" and process_count(text, place) >= MOST_PROCESSES:
        return Finding(f"{quoted(line)} is one too many; expected 1 to {MOST_PROCESSES} processes")
    if kind == "turns" and events_with(text, place) > MOST_EVENTS:
        return Finding(
            f"with {quoted(line)} there are {events_with(text, place):,} events; "
            f"expected at most {MOST_EVENTS:,}",
            1,
        )
    return at_refused(text, place) if kind == "at" else None


def process_line_refused(text, place):
    """P1."""
    above = text.line(place - 1)
    kind = above.split(" ")[0] if above is not None else None
    allowed = PROCESS_FOLLOWERS.get(kind, ("turns",))
    expected = '" or "'.join(str(form) for form in PROCESSES if form.word in allowed)
    line = text.line(place)
    if line is None:
        return missing(text, place, expected)
    found = malformed(line, PROCESSES, text.has_line_feed(place))
    return found or process_order(text, place, expected) or misplaced(line, expected)


def turns_refused(text, place):
    """P2."""
    words = text.line(place).split(" ")
    count = process_count(text, place)
    index = next(i for i, word in enumerate(words) if i > 1 and int(word) >= count)
    return Finding(
        f"{quoted(words[index])} in {quoted(' '.join(words))} is no process; expected numbers from "
        f"0 to {count - 1}",
        column_of(words, index),
    )


FINDERS = {
    "I1": image_line_refused,
    "I2": frames_refused,
    "I3": at_refused,
    "P1": process_line_refused,
    "P2": turns_refused,
}


def find(code, text, place):
    """What is wrong, by the code and the line of the refusal."""
    return FINDERS[code](text, place)
