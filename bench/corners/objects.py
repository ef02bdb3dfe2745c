"""Object segments with many definitions, as lists of words and as files."""

import functools


def joined(left, right):
    """A word of two halves."""
    return left << 18 | right


@functools.cache
def digits_of(word):
    return f"{word:09x}"


def packed(words):
    """Words of 36 bits, from the most significant bit on, with zeros to the end of a byte."""
    digits = "".join(map(digits_of, words))
    return bytes.fromhex(digits + "0" * (len(digits) % 2))


def object_of(definition):
    """The object of version 1 with this definition section and nothing else."""
    linkage = [0, joined(8, 0)] + [0] * 6
    map_at = len(definition) + len(linkage) + 1
    return definition + linkage + [0] + [
        1,
        joined(0, 0),
        joined(0, len(definition)),
        joined(len(definition), len(linkage)),
        joined(len(definition) + len(linkage), 1),
        joined(0, 0),
        joined(map_at, 0),
    ]


def definition_section(count, place_of_name, names):
    """`count` definitions of the text section at offset 0, and the words of their names after
    them. A name is at `place_of_name` of where these words begin and the definition's number."""
    base = 2 + 2 * count
    words = [joined(2, count), 0]
    for number in range(count):
        following = 2 + 2 * (number + 1) if number + 1 < count else 0
        words += [joined(following, 0), joined(0, place_of_name(base, number))]
    return words + names


@functools.cache
def name_words(name):
    """The words that spell a name: its length and its characters, in parts of nine bits."""
    parts = [len(name), *name.encode()]
    parts += [0] * (-len(parts) % 4)
    return [
        first << 27 | second << 18 | third << 9 | fourth
        for first, second, third, fourth in zip(*(parts[offset::4] for offset in range(4)))
    ]


def section_with_names(names):
    """The section whose definitions have these names, which are equally long."""
    spelled = [name_words(name) for name in names]
    size = len(spelled[0])
    words = [word for one in spelled for word in one]
    places = lambda base, number: base + size * number
    return definition_section(len(names), places, words)
