"""Where a name is defined: a symbol in its source, an entry of another segment in the source of
that segment, a name of a boot text in its line or its source."""

from typing import NamedTuple

from ..line_forms import FILE
from ..texts import Text
from .catalog import Catalog, start_of, word_at
from .documents import uri_of
from .elements import definition_in, element_at, layout_of
from .places import PlacedText

# The own sections of a source, as the segment of a link names them.
OWN = ("*text", "*link", "*static")


class Found(NamedTuple):
    """A place: the path of a file, its text, and the bytes from start to end."""

    path: object
    text: PlacedText
    start: int
    end: int

    def location(self):
        """The place as the protocol has it."""
        return {"uri": uri_of(self.path), "range": self.text.range_of(self.start, self.end)}


def in_line(path, text, number, column, length):
    """A place in a line, at a column counted from 0."""
    start = text.place_of(number, column + 1)
    return Found(path, text, start, min(start + length, len(text.data)))


def symbol_in(path, text, symbol):
    """Where a source defines a symbol, or None."""
    number = layout_of(text).defined.get(symbol)
    piece = definition_in(text.lines()[number - 1], symbol) if number else None
    return in_line(path, text, number, piece.at, len(piece.text)) if piece else None


class Definitions:
    """Definitions in a folder, for a document of it."""

    def __init__(self, workspace, document):
        self.workspace = workspace
        self.document = document
        self.folder = document.path.parent
        self.boot_path = self.folder / "boot"

    def at(self, place):
        """The places where what is at a place is defined."""
        number, column = self.document.program_place(place)
        raw = self.document.lines()[number - 1]
        if self.document.is_boot():
            return self.of_boot_word(*word_at(raw, column))
        element = element_at(raw, column) if self.document.is_source() else None
        if not element:
            return []
        if element.kind == "link":
            return self.of_link(element)
        if element.kind in ("symbol", "label"):
            return self.own_symbol(element.piece.text)
        return []

    def own_symbol(self, symbol):
        """Where the document itself defines a symbol."""
        found = symbol_in(self.document.path, self.document, symbol)
        return [found] if found else []

    def catalog(self):
        """The boot text of the folder with its text, or None twice."""
        text = self.workspace.text_at(self.boot_path)
        return (Catalog(text.lines()), text) if text else (None, None)

    def of_link(self, element):
        """Where the entry of another segment is defined, for each segment of this source."""
        name, entry = element.segment.text, element.entry.text
        if name in OWN:
            return self.own_symbol(entry)
        catalog, text = self.catalog()
        if not catalog:
            return []
        found = []
        for segment in catalog.targets(name, self.document.path.stem):
            place = self.of_entry(text, segment, name, entry)
            if place not in found:
                found.append(place)
        return found

    def of_entry(self, boot, segment, name, entry):
        """Where an entry of a segment is defined: in its source, or else in the boot text."""
        found = self.in_sources(segment.file, entry) if entry else None
        return found or self.of_segment(boot, segment, name)

    def in_sources(self, file, entry):
        """Where the source of a file, or one of those that are bound to it, defines an entry."""
        for name in [file, *self.components(file)]:
            path = self.folder / f"{name}.alm"
            text = self.workspace.text_at(path)
            if text and entry in layout_of(text).named:
                return symbol_in(path, text, entry)
        return None

    def components(self, file):
        """The objects that a bind file binds."""
        text = self.workspace.text_at(self.folder / f"{file}.bind")
        lines = [line.split(" ") for line in Text(text.data).lines] if text else []
        return [words[1] for words in lines
                if words[0] == "object" and len(words) == 2 and FILE.fits(words[1])]

    def of_segment(self, boot, segment, name):
        """Where the boot text gives a segment a name."""
        number = segment.names[name]
        words = boot.lines()[number - 1].split(" ")
        index = 1 if words[0] == "name" else 2
        return in_line(self.boot_path, boot, number, start_of(words, index), len(name))

    def of_boot_word(self, words, index):
        """What a word of a boot text names: a directory, a segment, a file or an entry."""
        catalog, text = self.catalog()
        if index is None or not catalog or len(words) < 2:
            return []
        word = words[index]
        if words[0] in ("work", "library") and index == 1:
            return self.first_of_directory(catalog, text, word)
        if words[0] == "start" and index == 2:
            name, _, entry = word.partition("$")
            segment = catalog.find(name)
            return [self.of_entry(text, segment, name, entry)] if segment else []
        if words[0] == "segment" and index in (2, 3) and len(words) > 3:
            return self.beginning_of(words[3])
        return []

    def first_of_directory(self, catalog, text, directory):
        """The first segment line with a directory."""
        segment = catalog.of_directory(directory)
        if not segment:
            return []
        return [in_line(self.boot_path, text, segment.line, len("segment "), len(directory))]

    def beginning_of(self, file):
        """The beginning of the source of a file, or of its bind file."""
        for suffix in (".alm", ".bind"):
            path = self.folder / f"{file}{suffix}"
            text = self.workspace.text_at(path) if FILE.fits(file) else None
            if text:
                return [Found(path, text, 0, 0)]
        return []
