"""Places in a text.

The program counts lines, and columns in bytes; a client counts lines, and columns in units of
UTF-16. Both are turned into places in the bytes of the text, counted from 0."""

import bisect
import re

LINE_END = re.compile(rb"\r\n|\n|\r")


def units(data):
    """How many units of UTF-16 a text has that is given in UTF-8."""
    return len(data.decode("utf-8", "replace").encode("utf-16-le")) // 2


class PlacedText:
    """A text with its places."""

    def __init__(self, data):
        self.data = data
        self.starts = [0] + [found.end() for found in LINE_END.finditer(data)]

    def lines(self):
        """The lines as the program counts them, one character for each byte."""
        return self.data.decode("latin-1").split("\n")

    def place_of(self, line, column):
        """The place of a line and a column as the program counts them, both from 1."""
        start = 0
        for _ in range(line - 1):
            end = self.data.find(b"\n", start)
            if end < 0:
                return len(self.data)
            start = end + 1
        end = self.data.find(b"\n", start)
        return min(start + max(column, 1) - 1, end if end >= 0 else len(self.data))

    def program_place(self, place):
        """The line as the program counts it, from 1, and the column in it, from 0."""
        before = self.data[:place]
        return before.count(b"\n") + 1, place - (before.rfind(b"\n") + 1)

    def position_of(self, place):
        """A place as a client counts it."""
        line = bisect.bisect_right(self.starts, place) - 1
        return {"line": line, "character": units(self.data[self.starts[line] : place])}

    def place_at(self, position):
        """The place of a client's position; past the end of a line it is that end."""
        line, wanted = position["line"], position["character"]
        if line >= len(self.starts):
            return len(self.data)
        start = self.starts[line]
        end = self.starts[line + 1] if line + 1 < len(self.starts) else len(self.data)
        text = self.data[start:end].decode("utf-8", "replace").rstrip("\r\n")
        for character in text:
            size = 2 if ord(character) > 0xFFFF else 1
            if wanted < size:
                break
            wanted -= size
            start += len(character.encode("utf-8"))
        return min(start, end)

    def range_of(self, start, end):
        """The range between two places."""
        return {"start": self.position_of(start), "end": self.position_of(end)}
