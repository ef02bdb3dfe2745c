"""What the access lists of the folder give to a user, for a start that they deny (ACCESS.md)."""

from m36lib.texts import read_text


def user_of(words):
    """The user that --user names in a command line, or None."""
    for index, word in enumerate(words):
        if word.startswith("--user="):
            return word.removeprefix("--user=")
        if word == "--user" and index + 1 < len(words):
            return words[index + 1]
    return None


def matches(term, user):
    """Whether a term matches a user: each component is `*` or that of the user."""
    pairs = list(zip(term.split("."), user.split("."), strict=False))
    return len(pairs) == 3 and all(one in ("*", other) for one, other in pairs)


def terms_of(text, directory, name):
    """The terms of the list of a segment, each with its mode."""
    terms, is_ours = [], False
    for line in text.lines:
        words = line.split(" ")
        if words[0] == "segment":
            is_ours = words[1:] == [directory, name]
        elif is_ours and words[0] == "term":
            terms.append((words[1], words[2]))
    return terms


def right_of(user, directory, name):
    """The mode that the access lists give to a user for a segment, and the term that decides."""
    text = read_text("acl")
    terms = terms_of(text, directory, name) if text else []
    return next(((mode, term) for term, mode in terms if matches(term, user)), ("null", "none"))
