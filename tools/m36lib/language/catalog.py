"""A boot text as far as an editor needs it, also while it is being written.

Nothing here decides whether a text is refused: lines that do not have their form are left out. A
line has one character for each byte."""

from typing import NamedTuple

from ..line_forms import BOOT, form_of, malformed


class CatalogSegment(NamedTuple):
    """A segment line with its name lines. Lines count from 1."""

    line: int
    words: tuple
    names: dict

    @property
    def directory(self):
        return self.words[1]

    @property
    def file(self):
        return self.words[3]


class Catalog:
    """The lines of a boot text that have their form."""

    def __init__(self, lines):
        self.lines = lines
        self.segments = []
        self.searched = []
        self.start = None
        for number, line in enumerate(lines, 1):
            form = form_of(line, BOOT)
            if form and not malformed(line, BOOT):
                self.take(number, line.split(" "))

    def take(self, number, words):
        """Takes a line."""
        if words[0] in ("work", "library"):
            self.searched.append(words[1])
        elif words[0] == "segment":
            self.segments.append(CatalogSegment(number, tuple(words), {words[2]: number}))
        elif words[0] == "name" and self.segments:
            self.segments[-1].names.setdefault(words[1], number)
        elif words[0] == "start":
            self.start = (number, words[2])

    def of_file(self, file):
        """The segments whose words are in a file."""
        return [segment for segment in self.segments if segment.file == file]

    def find(self, name, directory=None):
        """The first segment that the search for a name finds: in the directory of the segment that
        refers, in the working directory, and in the libraries in their order."""
        for searched in [directory, *self.searched]:
            for segment in self.segments:
                if segment.directory == searched and name in segment.names:
                    return segment
        return None

    def targets(self, name, file):
        """What the search finds for a name in the source of a file: a segment for each segment
        that this file is, or the one that is found without a directory of its own."""
        directories = [segment.directory for segment in self.of_file(file)] or [None]
        found = (self.find(name, directory) for directory in dict.fromkeys(directories))
        return [segment for segment in found if segment]

    def of_directory(self, directory):
        """The first segment of a directory, or None."""
        return next((it for it in self.segments if it.directory == directory), None)


def start_of(words, index):
    """The column, counted from 0, at which a word of a line begins."""
    return sum(len(word) + 1 for word in words[:index])


def word_at(line, column):
    """The words of a line of a boot text, and the number of the word at a column counted from 0;
    None where there is none."""
    words = line.split(" ")
    for index, word in enumerate(words):
        start = start_of(words, index)
        if word and start <= column <= start + len(word):
            return words, index
    return words, None
