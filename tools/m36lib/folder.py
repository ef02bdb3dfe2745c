"""Folders that boot: the boot text, files, sources and names (docs/BOOT.md).

The program has accepted the folder before it is read here: nothing of it is checked again. Names of
places come from the program's own prints, and lines of sources from its listings."""

import pathlib
import subprocess
import tempfile

from .fields import Dbr, Sdw, upper
from .names import Names

FIRST_STACK, FIRST_LINKAGE, FIRST_CATALOG = 8, 16, 64
BOOTED_DBR = Dbr(address=0, bound=127, unpaged=True, stack=1)
MOST_SECONDS = 60
STACK_BLOCKS, LINKAGE_BLOCKS = 64 * 16, 64 * 256
KINDS = ("object", "gate", "data")


class BootSegment:
    """A segment line of a boot text with its name lines."""

    def __init__(self, number, words):
        directory, name, file, kind, mode, *rings = words
        self.number = number
        self.directory = directory
        self.names = [name]
        self.file = file
        self.kind = kind
        self.mode = "" if mode == "null" else mode
        self.r1, self.r2, self.r3 = (int(ring) for ring in rings)

    @property
    def name(self):
        return self.names[0]


class Boot:
    """What a boot text says."""

    def __init__(self, text):
        self.segments = []
        self.libraries = []
        self.frames = 0
        self.work = None
        self.start = None
        for line in text.splitlines():
            self.take(line.split(" "))

    def take(self, words):
        kind, *rest = words
        if kind == "frames":
            self.frames = int(rest[0])
        elif kind == "work":
            self.work = rest[0]
        elif kind == "library":
            self.libraries.append(rest[0])
        elif kind == "segment":
            self.segments.append(BootSegment(FIRST_CATALOG + len(self.segments), rest))
        elif kind == "name":
            self.segments[-1].names.append(rest[0])
        elif kind == "start":
            self.start = (int(rest[0]), rest[1])


def words_of_file(data):
    """The words of a file: two in nine bytes."""
    words = []
    for at in range(0, len(data) - 8, 9):
        both = int.from_bytes(data[at : at + 9], "big")
        words += [both >> 36, both & (1 << 36) - 1]
    if len(data) % 9:
        words.append(int.from_bytes(data[-5:], "big") >> 4)
    return words


def ring_segment(ring, blocks):
    """The descriptor of a stack or a linkage segment."""
    return Sdw(0, ring, ring, ring, True, 0, blocks - 1, True, False, True, False, False, True, 0)


def entry_bound(words):
    """The entry bound of an object: the words before it can be called from higher rings."""
    return upper(words[-2])


def catalog_segment(segment, words):
    """The descriptor of a segment of the catalog."""
    mode = segment.mode
    gate = segment.kind == "gate"
    return Sdw(
        address=0,
        r1=segment.r1,
        r2=segment.r2,
        r3=segment.r3,
        present=True,
        fault=0,
        bound=max(len(words) - 1, 0) // 16,
        read="r" in mode,
        execute="e" in mode,
        write="w" in mode,
        privileged="p" in mode,
        unpaged=False,
        no_gate=not gate,
        limit=entry_bound(words) if gate else 0,
    )


class Folder:
    """A folder that boots."""

    def __init__(self, path):
        self.path = pathlib.Path(path)
        self.boot = Boot((self.path / "boot").read_text(encoding="ascii"))
        self.files = {}
        for segment in self.boot.segments:
            if segment.file not in self.files:
                data = (self.path / segment.file).read_bytes()
                self.files[segment.file] = words_of_file(data)

    def descriptors(self):
        """The descriptors of the booted system by segment number."""
        found = {}
        for ring in range(8):
            found[FIRST_STACK + ring] = ring_segment(ring, STACK_BLOCKS)
            found[FIRST_LINKAGE + ring] = ring_segment(ring, LINKAGE_BLOCKS)
        for segment in self.boot.segments:
            found[segment.number] = catalog_segment(segment, self.files[segment.file])
        return found


def printed(program, folder, name):
    """The lines of `m36 print NAME`, or none where it is no object."""
    done = subprocess.run([program, "print", name], cwd=folder, capture_output=True)
    return done.stdout.decode("ascii").splitlines() if done.returncode == 0 else []


def definitions(lines):
    """The definitions of the text in a print: pairs of a place and a name, in order."""
    found = []
    for line in lines:
        words = line.split(" ")
        if words[0] == "def" and words[2] == "text":
            found.append((int(words[3], 8), words[1]))
    return sorted(found, key=lambda pair: pair[0])


class Source:
    """The source of an object: its lines, and the line of each word of the text. `problem` says why
    the object is not of this source, and is None where it is."""

    def __init__(self, file, lines, places, problem):
        self.file = file
        self.lines = lines
        self.places = places
        self.problem = problem


def listing_places(lines):
    """The line of each word of the text, by a listing."""
    places = {}
    for line in lines:
        words = line.split(" ")
        if words[0] == "text" and len(words) == 4:
            places[int(words[1], 8)] = int(words[3])
    return places


def assembled(program, folder, name):
    """The object that the source NAME.alm is assembled to, and its listing; or None and what the
    program says. Nothing is written in the folder."""
    return assembled_text(program, name, (pathlib.Path(folder) / f"{name}.alm").read_bytes())


def assembled_text(program, name, data):
    """The same of a source NAME.alm with these bytes."""
    with tempfile.TemporaryDirectory() as copy:
        (pathlib.Path(copy) / f"{name}.alm").write_bytes(data)
        done = subprocess.run([program, "alm", name], cwd=copy, capture_output=True,
                              stdin=subprocess.DEVNULL, timeout=MOST_SECONDS)
        if done.returncode:
            return None, done.stderr.decode("utf-8", "replace").splitlines()[:1]
        made = (pathlib.Path(copy) / name).read_bytes()
    return made, done.stdout.decode("ascii").splitlines()


def source_of(program, folder, name):
    """The source of an object of the folder, or None where there is none."""
    path = pathlib.Path(folder) / f"{name}.alm"
    if not path.is_file():
        return None
    lines = path.read_bytes().decode("utf-8", "replace").split("\n")
    made, said = assembled(program, folder, name)
    if made is None:
        problem = f"{name}.alm does not assemble ({said[0] if said else 'no reason given'})"
        return Source(path.name, lines, {}, problem)
    if made != (pathlib.Path(folder) / name).read_bytes():
        return Source(path.name, lines, {}, f"{name} is not what {name}.alm assembles to")
    return Source(path.name, lines, listing_places(said), None)


class FolderNames(Names):
    """Names of segments and words: `main$start+1`, `gate_|1`, `stack_4|100`, `linkage_4|2010`.

    The entries of a gate are jumps, so a word after its entry bound belongs to none of them: it is
    named after a definition that is there too, or by its number. The definitions of a file are
    printed when the first word of it is named."""

    def __init__(self, program, folder):
        self.program = program
        self.path = folder.path
        self.segments = {}
        self.files = {}
        self.entry_bounds = {}
        self.printed = {}
        self.known = {}
        for ring in range(8):
            self.segments[FIRST_STACK + ring] = f"stack_{ring}"
            self.segments[FIRST_LINKAGE + ring] = f"linkage_{ring}"
        for segment in folder.boot.segments:
            self.segments[segment.number] = segment.name
            if segment.kind != "data":
                self.files[segment.number] = segment.file
            if segment.kind == "gate":
                self.entry_bounds[segment.number] = entry_bound(folder.files[segment.file])

    def segment(self, number):
        return self.segments.get(number) or super().segment(number)

    def word(self, segment, word):
        found = self.known.get((segment, word))
        if found is None:
            found = self.known[segment, word] = self.find(segment, word)
        return found

    def entries(self, segment):
        """The definitions of a segment's text: pairs of a place and a name, in order."""
        file = self.files.get(segment)
        if file is None:
            return []
        if file not in self.printed:
            self.printed[file] = definitions(printed(self.program, self.path, file))
        return self.printed[file]

    def find(self, segment, word):
        name = self.segments.get(segment)
        if name is None:
            return super().word(segment, word)
        bound = self.entry_bounds.get(segment, 0)
        first = bound if word >= bound else 0
        before = [pair for pair in self.entries(segment) if first <= pair[0] <= word]
        if not before:
            return f"{name}|{word:o}"
        place, entry = before[-1]
        return f"{name}${entry}" + (f"+{word - place:o}" if word > place else "")


class Sources:
    """The sources of a folder's objects. One is assembled when it is first asked for."""

    def __init__(self, program, folder):
        self.program = program
        self.path = folder.path
        self.files = {s.number: s.file for s in folder.boot.segments if s.kind != "data"}
        self.found = {}

    def of(self, segment):
        """The source of a segment, or None."""
        file = self.files.get(segment)
        if file is None:
            return None
        if file not in self.found:
            self.found[file] = source_of(self.program, self.path, file)
        return self.found[file]

    def line(self, segment, word):
        """The file and the line of a word of a segment's text; None twice where there is none."""
        source = self.of(segment)
        if source is None or word not in source.places:
            return None, None
        return source.file, source.places[word]

    def all(self):
        """All sources, each once."""
        for segment in self.files:
            self.of(segment)
        return [source for source in self.found.values() if source]


class NoSources:
    """Where there is no source, as of a bare image."""

    def of(self, segment):
        return None

    def line(self, segment, word):
        return None, None

    def all(self):
        return []
