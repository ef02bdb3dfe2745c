"""The command `list`: lines of a source, or instructions where there is none; then those after them
or before them."""

import re
from typing import NamedTuple

from . import show
from .command_words import Refused

LISTED = 10
RANGE = re.compile(r"(?:(\S+):)?([0-9]+)\s*,\s*([0-9]+)$")


class Listed(NamedTuple):
    """What was listed last: lines of a segment's source, or words of its text."""

    segment: int
    is_source: bool
    first: int
    last: int


class Listing:
    """`list`, for front.Front: `listed_to` is the Listed, or None after a move."""

    def do_list(self, rest):
        lines = RANGE.match(rest)
        if lines:
            self.list_range(lines[1], int(lines[2]), int(lines[3]))
        elif rest == "-":
            self.list_before(self.listed_to or self.around(*self.place_of_frame()))
        elif rest:
            self.list_these(self.around(*self.session.places.find(rest)))
        elif self.listed_to:
            self.list_after(self.listed_to)
        else:
            self.list_these(self.around(*self.place_of_frame()))

    def place_of_frame(self):
        """The segment and the word of the call that is chosen."""
        if not self.frame_number:
            return self.session.registers.segment, self.session.registers.word
        frame = self.session.frames()[self.frame_number]
        return frame.segment, frame.word

    def around(self, segment, word):
        """What is listed around a word."""
        source = self.session.world.sources.of(segment)
        line = source.places.get(word) if source else None
        if line is None:
            first = show.first_word(word, LISTED)
            return Listed(segment, False, first, first + LISTED - 1)
        first = show.first_line(source, line, LISTED)
        return Listed(segment, True, first, min(first + LISTED - 1, show.last_line(source)))

    def list_range(self, name, first, last):
        """Lists the lines from one to another of a segment's source, or of the one shown."""
        places = self.session.places
        if name:
            segment = places.segment(name.removesuffix(".alm"))
        else:
            segment = (self.listed_to or self.place_of_frame())[0]
        source = self.session.world.sources.of(segment)
        if source is None:
            raise Refused(f"there is no source of {self.session.world.names.segment(segment)}")
        if not 1 <= first <= last:
            raise Refused("the form is `list FIRST,LAST`, with the numbers of two lines")
        if first > show.last_line(source):
            raise Refused(ends_at(source))
        self.list_these(Listed(segment, True, first, min(last, show.last_line(source))))

    def list_after(self, listed):
        """Lists what follows."""
        segment, is_source, _, last = listed
        stop = last + LISTED
        if is_source:
            source = self.session.world.sources.of(segment)
            stop = min(stop, show.last_line(source))
            if last >= stop:
                raise Refused(ends_at(source))
        elif self.session.words(segment, last + 1) == [None]:
            name = self.session.world.names.word(segment, last + 1)
            raise Refused(f"there is no word {name}")
        self.list_these(Listed(segment, is_source, last + 1, stop))

    def list_before(self, listed):
        """Lists what comes before."""
        segment, is_source, first, _ = listed
        least = 1 if is_source else 0
        if first <= least:
            raise Refused(f"there is nothing before {'line 1' if is_source else 'word 0'}")
        self.list_these(Listed(segment, is_source, max(least, first - LISTED), first - 1))

    def list_these(self, listed):
        segment, is_source, first, last = listed
        write = show.numbered_lines if is_source else show.code_lines
        breaks = self.session.active_breaks()
        self.write_all(write(self.session, segment, first, last - first + 1, breaks))
        self.listed_to = listed


def ends_at(source):
    return f"the source ends at line {show.last_line(source)}"
