"""What is wrong in a boot text: the codes D1 to D6 and U1 to U4, in words."""

from m36lib.line_forms import BOOT, Finding, column_of, malformed
from m36lib.shown import quoted
from m36lib.user_rights import right_of

# Which kinds of lines may follow a line; the text begins with `frames`.
AFTER_WORK = ("library", "segment", "start")
AFTER_SEGMENT = ("segment", "name", "start")
FOLLOWERS = {
    None: ("frames",),
    "frames": ("work",),
    "work": AFTER_WORK,
    "library": AFTER_WORK,
    "segment": AFTER_SEGMENT,
    "name": AFTER_SEGMENT,
    "start": (),
}
FIRST_SEGMENT = 64


def forms_named(words):
    """The forms of these kinds of lines, in words."""
    named = [str(form) for form in BOOT if form.word in words]
    return " or ".join(f'"{form}"' for form in named)


def out_of_order(text, number):
    """What is wrong with a line that has its form and may not follow the one above it."""
    words = text.line(number).split(" ")
    above = text.line(number - 1)
    kind = above.split(" ")[0] if above is not None else None
    allowed = FOLLOWERS.get(kind, ())
    place = f"may not follow the line {quoted(above)}" if above else "may not come first"
    expected = f"expected {forms_named(allowed)}" if allowed else "expected the end of the text"
    return Finding(f"the line {quoted(' '.join(words))} {place}; {expected}", 1)


def form_refused(text, number):
    """D1."""
    found = malformed(text.line(number), BOOT, text.has_line_feed(number))
    return found or out_of_order(text, number)


def directory_before(text, number):
    """The directory of the last segment line above line `number`."""
    for above in range(number - 1, 0, -1):
        words = text.line(above).split(" ")
        if words[0] == "segment" and len(words) > 1:
            return words[1]
    return ""


def entry_of(text, number):
    """The directory and the name that a line gives, and the place of the name in the line."""
    words = text.line(number).split(" ")
    if words[0] == "segment" and len(words) > 2:
        return words[1], words[2], 2
    if words[0] == "name" and len(words) > 1:
        return directory_before(text, number), words[1], 1
    return None


def name_refused(text, number):
    """D2."""
    directory, name, index = entry_of(text, number)
    first = next(
        (n for n in range(1, number) if (entry_of(text, n) or ())[:2] == (directory, name)), None
    )
    where = f" since line {first}" if first else ""
    return Finding(
        f"{quoted(name)} is a name in {quoted(directory)}{where}; expected each name once in a "
        "directory",
        column_of(text.line(number).split(" "), index),
    )


def later_malformed(text, number):
    """The first malformed line after a line, and what is wrong with it; None where none is."""
    for later in range(number + 1, len(text.lines) + 1):
        found = malformed(text.line(later), BOOT, text.has_line_feed(later))
        if found:
            return later, found
    return None


def directory_refused(text, number):
    """D3."""
    words = text.line(number).split(" ")
    return Finding(
        f"{quoted(words[1])}; expected a line {forms_named(('segment',))} with it as DIR",
        column_of(words, 1),
    )


def brackets_refused(text, number):
    """D4."""
    words = text.line(number).split(" ")
    kind, mode, one, two, three = words[4:9]
    if one > two:
        why, index = f"R1 is {one}, above R2, which is {two}", 6
    elif two > three:
        why, index = f"R2 is {two}, above R3, which is {three}", 7
    elif kind == "gate" and "e" not in mode:
        why, index = f"the mode {quoted(mode)} of a gate lacks e", 5
    else:
        why, index = f"R2 and R3 of a gate are both {two}, so no ring can call it", 7
    return Finding(
        f"{why}: {quoted(' '.join(words[4:9]))}; expected R1 <= R2 <= R3, and of a gate "
        "a mode with e and R2 < R3",
        column_of(words, index),
    )


def count_refused(text, number):
    """D5."""
    kind = text.line(number).split(" ")[0]
    most = {"segment": "512 segments", "name": "7 further names of a segment"}
    limit = most.get(kind, "16 libraries")
    return Finding(f"{quoted(text.line(number))} is one too many; expected at most {limit}", 1)


def end_refused(text, number):
    """D6."""
    last = text.line(number - 1)
    place = f"after {quoted(last)}" if last is not None else "it is empty"
    return Finding(f"{place}; expected {forms_named(('start',))}")


def frames_refused(text, _number):
    """U1."""
    return Finding(f"{quoted(text.line(1) or '')}; expected at least 24")


def segment_lines(text):
    """The numbers of the segment lines, in order."""
    return [n for n, line in enumerate(text.lines, 1) if line.startswith("segment ")]


def segment_words(text, number):
    """What the line of a segment says, by the number of the segment."""
    lines = segment_lines(text)
    index = number - FIRST_SEGMENT
    return text.line(lines[index]).split(" ") if 0 <= index < len(lines) else None


def gate_refused(text, number):
    """U2."""
    words = segment_words(text, number)
    if not words:
        return Finding(f"segment {number} has no entry")
    return Finding(
        f"the object {quoted(words[3])} of the gate {quoted(words[2])} has an entry bound of 0, or "
        "over 16383; expected entrybound after the first entries of its source"
    )


def object_refused(text, number):
    """U4."""
    words = segment_words(text, number)
    if not words:
        return Finding(f"the file of segment {number} is no object")
    if words[4] == "data":
        return Finding(
            f"the start is in {quoted(words[2])}, which is data; expected an object or a gate"
        )
    return Finding(
        f"{quoted(words[3])}, the file of {quoted(words[2])}; expected an object that alm or bind "
        "has written"
    )


def found_by_name(text, name):
    """The words of the first segment line that the search for a name finds: the working directory
    is searched, and then the libraries in their order."""
    lines = [line.split(" ") for line in text.lines]
    named = {}
    directory, segment = "", None
    for words in lines:
        if words[0] == "segment":
            directory, segment = words[1], words
            named.setdefault((directory, words[2]), segment)
        elif words[0] == "name":
            named.setdefault((directory, words[1]), segment)
    searched = [words[1] for words in lines if words[0] in ("work", "library")]
    return next((named[d, name] for d in searched if (d, name) in named), None)


def start_denied(found, user):
    """What is wrong with a start in a segment that the access lists deny to a user, or None."""
    if not user:
        return None
    mode, term = right_of(user, found[1], found[2])
    if "e" in mode:
        return None
    why = f"by the term {quoted(term)}" if term != "none" else "since no term matches"
    return Finding(
        f"the access lists give {quoted(user)} the mode {quoted(mode)} for {quoted(found[2])}, "
        f"{why}; expected one with e, since the start executes there"
    )


def start_refused(text, _number, user=None):
    """U3, with the user whose rights count."""
    words = text.line(len(text.lines)).split(" ")
    ring, target = words[1], words[2]
    name, entry = target.split("$")
    found = found_by_name(text, name)
    if not found:
        return Finding(
            f"{quoted(name)} of the start {quoted(target)} is not found; expected a segment of "
            "that name in the working directory or a library"
        )
    mode, one, two = found[5:8]
    if not one <= ring <= two:
        return Finding(
            f"ring {ring} of the start is not from R1 to R2 of {quoted(name)}, which are {one} and "
            f"{two}; expected one of these rings"
        )
    denied = start_denied(found, user)
    if denied:
        return denied
    if "e" not in mode and not user:
        return Finding(
            f"the mode {quoted(mode)} of {quoted(name)} lacks e; expected one with e, since the "
            "start executes there"
        )
    return Finding(
        f"the object {quoted(found[3])} does not define {quoted(entry)}; expected an entry or "
        "segdef of that name"
    )


FINDERS = {
    "D1": form_refused,
    "D2": name_refused,
    "D3": directory_refused,
    "D4": brackets_refused,
    "D5": count_refused,
    "D6": end_refused,
    "U1": frames_refused,
    "U2": gate_refused,
    "U4": object_refused,
}


def find(code, text, number, user=None):
    """What is wrong, by the code and the place of the refusal, and the user of a start."""
    if code == "U3":
        return start_refused(text, number, user)
    return FINDERS[code](text, number)
