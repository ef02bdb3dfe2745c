"""Draws mistakes from the examples: each mutator puts one wrong text into a file that was right.

A mutator knows what it put in, so it knows the text that the answer must name, the code by the
rules of the documents, and words of the form that is expected there. `draw(root, seed)` gives the
same list for the same examples and the same seed.
"""

import random

from speak_tests.boot_mutants import BOOT_MUTATORS
from speak_tests.list_mutants import ACCESS_MUTATORS, BIND_MUTATORS, WORD_MUTATORS, commands_of
from speak_tests.mistakes import Mistake
from speak_tests.source_mutants import SOURCE_MUTATORS

COUNTS = {"source": 45, "boot": 18, "bind": 6, "access": 6, "words": 12}
# How often a mutator looks for an example that suits it, and how often each has its turn.
TRIES, TURNS = 200, 20


def texts(root, pattern):
    """The examples whose names match, each with its text."""
    found = sorted((root / "examples").rglob(pattern))
    return [(str(path.relative_to(root)), path.read_text()) for path in found]


def examples_of(root, kind):
    """The right texts of one kind, each with where it comes from."""
    if kind == "words":
        calls = texts(root, "commands")
        return [(origin, words) for origin, text in calls for words in commands_of(text)]
    pattern = {"source": "*.alm", "boot": "boot", "bind": "*.bind", "access": "acl"}[kind]
    return texts(root, pattern)


MUTATORS = {
    "source": SOURCE_MUTATORS,
    "boot": BOOT_MUTATORS,
    "bind": BIND_MUTATORS,
    "access": ACCESS_MUTATORS,
    "words": WORD_MUTATORS,
}


def mutant_of(mutator, examples, chance):
    """A mistake that a mutator makes in an example that suits it, drawn at random, and where the
    example is from; None where none of the draws suits."""
    for _ in range(TRIES):
        origin, text = examples[chance.randrange(len(examples))]
        made = mutator(text, chance)
        if made:
            return origin, made
    return None


def draw_kind(root, kind, count, chance):
    """Mistakes of one kind. The mutators take turns."""
    examples = examples_of(root, kind)
    mutators = MUTATORS[kind]
    drawn = []
    for turn in range(TURNS * len(mutators)):
        mutator = mutators[turn % len(mutators)]
        found = mutant_of(mutator, examples, chance)
        if len(drawn) == count or not found:
            continue
        origin, (text, code, wrong, *expected) = found
        if all(text != other.text for other in drawn):
            origin = f"{origin} {mutator.__name__}"
            drawn.append(Mistake(kind, text, code, wrong, tuple(expected), origin))
    return drawn


def draw(root, seed):
    """All kinds of mistakes by a seed."""
    chance = random.Random(seed)
    return [m for kind, count in COUNTS.items() for m in draw_kind(root, kind, count, chance)]
