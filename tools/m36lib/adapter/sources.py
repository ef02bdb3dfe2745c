"""The sources of a session as an editor knows them: files of the folder, and for a segment without
one its words as instructions, a line for each."""

from ..disassemble import disassemble
from ..protocol.members import optional, member
from .channel import Refused

MOST_WORDS = 4096


class SourceTexts:
    """Sources by segments."""

    def __init__(self, adapter):
        self.adapter = adapter

    def handlers(self):
        return {"source": self.source}

    @property
    def session(self):
        return self.adapter.session

    def path_of(self, file):
        """The path of a source of the folder."""
        return str(self.adapter.path / file)

    def segments_of(self, path):
        """The segments that are assembled of a source."""
        world = self.session.world
        files = getattr(world.sources, "files", {})
        try:
            path = path.resolve()
        except (OSError, ValueError):
            return []
        return [segment for segment, file in files.items()
                if self.adapter.path / f"{file}.alm" == path and world.sources.of(segment)]

    def of_place(self, segment, word):
        """The source and the line of a word, as the protocol has them."""
        file, line = self.session.source_line(segment, word)
        first = self.adapter.first_line
        if file:
            return {"name": file, "path": self.path_of(file)}, line - 1 + first
        name = self.session.world.names.segment(segment)
        source = {"name": f"{name} (instructions)", "sourceReference": segment + 1,
                  "presentationHint": "deemphasize"}
        return source, word + first

    @staticmethod
    def segment_of(reference):
        """The segment of a reference."""
        if not 1 <= reference <= 1 << 15:
            raise Refused("there is no such source")
        return reference - 1

    def source(self, arguments):
        source = optional(arguments, "source", dict, {})
        reference = source.get("sourceReference") or member(arguments, "sourceReference", int)
        segment = self.segment_of(reference if isinstance(reference, int) else 0)
        header = next((it for it in self.session.world.segments() if it.number == segment), None)
        count = min(header.words if header else 0, MOST_WORDS)
        lines = []
        for word, value in enumerate(self.session.words(segment, 0, count)):
            lines.append(f"{word:06o}  {'absent' if value is None else disassemble(value)}")
        return {"content": "\n".join(lines) + "\n", "mimeType": "text/plain"}
