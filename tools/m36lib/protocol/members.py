"""The members of a message, with their types.

A client may send anything: each member is taken by one of these functions, and one that is missing
or of another type raises WrongMember, which a server answers as an error of the request."""

NAMES = {dict: "an object", list: "a list", str: "a text", int: "a whole number", bool: "a Boolean"}
MOST = 2**31 - 1


class WrongMember(Exception):
    """A member is missing, or is not of its type."""


def is_of(value, kind):
    """Whether a value has a type. A Boolean is no number."""
    return isinstance(value, kind) and (kind is bool or not isinstance(value, bool))


def member(where, name, kind):
    """A member that must be there."""
    value = where.get(name) if isinstance(where, dict) else None
    if not is_of(value, kind):
        raise WrongMember(f"{name} is missing or is not {NAMES[kind]}")
    return value


def optional(where, name, kind, otherwise=None):
    """A member that may be missing or null."""
    if not isinstance(where, dict) or where.get(name) is None:
        return otherwise
    return member(where, name, kind)


def count(where, name):
    """A whole number from 0 to 2147483647."""
    value = member(where, name, int)
    if not 0 <= value <= MOST:
        raise WrongMember(f"{name} is not from 0 to {MOST}")
    return value


def objects(where, name):
    """A list of objects."""
    values = member(where, name, list)
    if not all(isinstance(value, dict) for value in values):
        raise WrongMember(f"{name} has a member that is not an object")
    return values
