"""The form of an entry in the table of sentences that `m36lib.words` has."""

from dataclasses import dataclass


@dataclass(frozen=True)
class Entry:
    """A word that m36 prints, its sentence, what to do about it, the page that states it, the kind
    of word that it is, and its name where the word is a number."""

    word: str
    sentence: str
    advice: str
    page: str = ""
    title: str = ""
    name: str = ""


@dataclass(frozen=True)
class Group:
    """Entries of one kind, with the page that has their rules."""

    title: str
    page: str
    section: str
    entries: tuple[Entry, ...]

    def __iter__(self):
        return iter(self.entries)


def group(title, page, section, *rows):
    """A group of rows (word, sentence, advice)."""
    where = f"{page}, {section}" if section else page
    return Group(title, page, section, tuple(Entry(*row, where, title) for row in rows))


def faults(title, page, section, *rows):
    """A group of rows (number, name, sentence, advice)."""
    where = f"{page}, {section}"
    entries = (Entry(word, *words, where, title, name) for word, name, *words in rows)
    return Group(title, page, section, tuple(entries))
