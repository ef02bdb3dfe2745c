"""Bare images (docs/IMAGES.md)."""

from .fields import dbr_of
from .memory import SEGMENTS, CoreMemory, NoAccess, in_bounds

FRAME = 1024


class Image:
    """A bare image that the program reads: its core, and where the processor starts."""

    def __init__(self, text):
        self.words = {}
        self.frames = 0
        self.dbr = None
        self.start = None
        for line in text.splitlines():
            self.take(line.split(" "))

    def take(self, words):
        kind, *rest = words
        if kind == "core":
            self.frames = int(rest[0])
        elif kind == "dbr":
            self.dbr = dbr_of(*(int(word, 8) for word in rest))
        elif kind == "start":
            segment, ring, word = (int(part, 8) for part in rest)
            self.start = (ring, segment, word)
        elif kind == "at":
            for offset, word in enumerate(rest[1:]):
                self.words[int(rest[0], 8) + offset] = int(word, 8)

    def memory(self):
        """The core of the image, to be changed as its run goes."""
        return CoreMemory(self.frames * FRAME, dict(self.words))

    def segments(self):
        """The live segments at the start: pairs of a number and a descriptor."""
        memory = self.memory()
        for segment in range(SEGMENTS):
            if not in_bounds(self.dbr, segment):
                return
            try:
                yield segment, memory.descriptor(self.dbr, segment)
            except NoAccess:
                pass


def read_image(path):
    """The image in a file that the program has accepted."""
    return Image(path.read_text(encoding="ascii"))
