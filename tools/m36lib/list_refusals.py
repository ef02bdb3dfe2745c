"""What is wrong in access lists and bind files: the codes C1 to C3 and B1 to B5, in words."""

from m36lib.line_forms import ACCESS, BIND, Finding, column_of, malformed
from m36lib.shown import quoted

TERM_LIMIT = 16


def first_like(text, number, is_like):
    """The number of the first line above a line that is like it, or None."""
    return next((n for n in range(1, number) if is_like(text.line(n).split(" "))), None)


def last_segment(text, number):
    """The number of the last segment line above a line, or 0."""
    above = (n for n in range(number - 1, 0, -1) if text.line(n).startswith("segment "))
    return next(above, 0)


# ---- access lists


def term_refused(text, number):
    """C1."""
    line = text.line(number)
    found = malformed(line, ACCESS, text.has_line_feed(number))
    if found:
        return found
    if not last_segment(text, number):
        return Finding(f'{quoted(line)} comes before any segment line; expected "{ACCESS[0]}"', 1)
    return Finding(f"{quoted(line)} is one too many; expected at most {TERM_LIMIT} terms", 1)


def list_refused(text, number):
    """C2."""
    words = text.line(number).split(" ")
    if words[0] == "segment":
        first = first_like(text, number, lambda above: above == words)
        return Finding(
            f"{quoted(' '.join(words[1:]))} has a list already{in_line(first)}; "
            "expected each segment once",
            column_of(words, 1),
        )
    top = last_segment(text, number)
    first = next((n for n in range(top, number) if text.line(n).split(" ")[:2] == words[:2]), None)
    return Finding(
        f"the term {quoted(words[1])} is given already{in_line(first)}; "
        "expected each term once below its segment",
        column_of(words, 1),
    )


def segment_unknown(text, number):
    """C3."""
    words = text.line(number).split(" ")
    return Finding(
        f"{quoted(' '.join(words[1:]))}; expected the directory and the name of a segment line of "
        "boot",
        column_of(words, 1),
    )


def in_line(number):
    """The place of an earlier line, in words."""
    return f", in line {number}" if number else ""


# ---- bind files

BIND_FOLLOWERS = {
    None: ("version", "object"),
    "version": ("object",),
    "object": ("object", "retain"),
    "retain": ("retain",),
}


def has_object(text):
    """Whether some line of a bind file names an object."""
    return any(line.startswith("object ") and not malformed(line, BIND) for line in text.lines)


def bind_refused(text, number):
    """B1."""
    line = text.line(number)
    if line is not None:
        found = malformed(line, BIND, text.has_line_feed(number))
        if found:
            return found
    if not has_object(text):
        shown = f", though it begins {quoted(line)}" if line is not None else ""
        return Finding(f'the file has no object line{shown}; expected at least one "{BIND[1]}"')
    above = text.line(number - 1)
    allowed = BIND_FOLLOWERS[above.split(" ")[0] if above is not None else None]
    place = f"may not follow {quoted(above)}" if above is not None else "may not come first"
    expected = " or ".join(f'"{form}"' for form in BIND if form.word in allowed)
    return Finding(f"the line {quoted(line)} {place}; expected {expected}", 1)


def name_repeated(text, number):
    """B3."""
    words = text.line(number).split(" ")
    first = first_like(text, number, lambda above: above == words)
    if first:
        why = f"{quoted(words[1])} is given already, in line {first}"
    else:
        why = f"two components define {quoted(words[1])}"
    return Finding(
        f"{why}; expected each {words[0]} name once, and defined by one component alone",
        column_of(words, 2 - 1),
    )


def size_refused(_text, _number):
    """B4."""
    return Finding(
        "expected at most 258,048 words in a section and 262,144 in the object, and offsets "
        "after a pointer register from -16,384 to 16,383"
    )


def name_undefined(text, number):
    """B5."""
    words = text.line(number).split(" ")
    return Finding(
        f"{quoted(words[1])}; expected a name of an entry or segdef line of one of the sources",
        column_of(words, 1),
    )


FINDERS = {
    "C1": term_refused,
    "C2": list_refused,
    "C3": segment_unknown,
    "B1": bind_refused,
    "B3": name_repeated,
    "B4": size_refused,
    "B5": name_undefined,
}


def find(code, text, number):
    """What is wrong, by the code and the line of the refusal."""
    return FINDERS[code](text, number)
