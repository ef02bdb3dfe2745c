"""The lines that follow the output of m36 on a terminal: its status line in words."""

import os

from m36lib.ends import end_in_words
from m36lib.refusals import refusal_in_words
from m36lib.shown import WIDTH, paragraph, plain
from m36lib.stale import stale_in_words
from m36lib.usage import wrong_word
from m36lib.words import with_explain

STATUS = b"m36: "
USAGE = b"m36: Usage"


def width():
    """The width of the terminal, as far as a paragraph uses it."""
    try:
        columns = os.get_terminal_size(2).columns
    except (OSError, ValueError):
        return WIDTH
    return max(40, min(WIDTH, columns - 1)) if columns else WIDTH


def usage_lines(words):
    """What is wrong with a command line, for after the line of Usage and before the help."""
    wrong = wrong_word(words)
    return [*rows_of([], [f"Usage: {wrong.sentence}"]), ""] if wrong else []


def start_lines(program, words):
    """What a person should know before the program runs."""
    sentence = stale_in_words(program, words)
    return rows_of([], [f"stale: {sentence}"]) if sentence else []


def end_lines(said, program, words, status):
    """What the program said, in words: `said` is its standard error."""
    lines = said.split(b"\n")
    if USAGE in lines or not status:
        return []
    for line in lines:
        if not line.startswith(STATUS):
            continue
        parts = refusal_in_words(line.decode("ascii", "replace"), words)
        if parts:
            return [row for shown, told in parts for row in rows_of(shown, told)]
    return rows_of([], end_in_words(program, words, status))


def rows_of(shown, sentences):
    """Lines as they are, and then sentences as paragraphs."""
    texts = [plain(with_explain(sentence)) for sentence in sentences]
    return [*shown, *(paragraph(text, width()) for text in texts)]
