"""Bare machines with random tables and words, for programs that are drawn (cases_path.py).

Core has five frames. Frame 0 has the tables: descriptors, and page tables. Frame 1 has segments
without pages, the other frames pages and more such segments. Segment 7 lies over all of core, so
that each word of it can be looked at after a run."""

from dataclasses import dataclass

from .cases_words import any_word
from .fields import Dbr, dbr_words, ptw_of
from .made_images import sdw
from .memory import CoreMemory
from .registers import Indicators, Pointer, Registers

FRAME, FRAMES = 1024, 5
SIZE = FRAME * FRAMES
TABLES, TABLE_WORDS = 0o400, 16
LONGEST_TABLE = 0o37777
VIEW, VIEW_SDW = 7, sdw(0, "000", "", SIZE // 16 - 1)
FREE_NUMBERS = range(32, 64)
PRESENT = 4
MODES = ("r", "rw", "rw", "rw", "w", "re", "rewp", "")
PRIVILEGED_MODES = ("rep", "rep", "rewp", "re")
CODE_MODES = ("re", "re", "rew", "e", "rep", "rewp")

# Numbers without a descriptor, by a part of the goal.
ABSENT = (
    ("descriptor page", (0o1000, 0o1000, 0o2000, 0o3000, 0o10000)),
    ("1 descriptor", (0o10000, 0o77777)),
    ("", (6, 63, 0o1000, 0o10000, 0o77777)),
)


@dataclass(frozen=True)
class Segment:
    """A segment: where its words are in core, and how many can be used. An odd one has something
    in its tables that refuses references to it."""

    number: int
    base: int
    words: int
    kind: str
    rings: tuple
    entries: int = None


class DrawnMemory(CoreMemory):
    """Core that notes which words a step looks at."""

    def __init__(self, size, words):
        super().__init__(size, words)
        self.touched = set()

    def content(self, spot, segment, word):
        self.touched.add(spot)
        return super().content(spot, segment, word)


def brackets(random, ring=None):
    """Brackets in order; with a ring, such that it executes there."""
    if ring is None:
        return tuple(sorted(random.randrange(8) for _ in range(3)))
    first = random.randint(0, ring) if random.random() < 0.5 else ring
    second = random.randint(ring, 7) if random.random() < 0.3 else ring
    return first, second, random.randint(second, 7)


def digits(rings):
    return "".join(map(str, rings))


def without_f(base, code):
    """A descriptor with F off, which names a directed fault."""
    even, odd = sdw(base, "077", "rew", 7, live=False)
    return even | code, odd


class World:
    """A machine: its words of core, its segments, and where it starts. `goal` is a feature that the
    program is to reach, if it can: the tables are such that this is not rare. The segments in
    `aimed` refuse as the goal says, and `absent` are numbers of segments without a descriptor."""

    def __init__(self, random, goal=""):
        self.random = random
        self.goal = goal
        self.aimed = []
        self.absent = next((some for text, some in ABSENT if text in goal), ABSENT[-1][1])
        self.memory = DrawnMemory(SIZE, {})
        self.segments = {}
        self.tables = TABLES
        self.numbers = list(FREE_NUMBERS)
        random.shuffle(self.numbers)
        self.ring = random.choice((0, 0, 0, 1, 2, 3, 4, 4, 5, 6, 7))
        if goal in ("dis", "20.9 call") or goal.endswith(" locate"):
            self.ring = 0
        self.lay_descriptor_segment()
        self.lay_segments()
        self.lay_odd_segments()
        self.put(self.descriptors + 2 * VIEW, VIEW_SDW)
        self.registers = self.first_registers()

    def put(self, at, words):
        self.memory.words.update((at + offset, word) for offset, word in enumerate(words))

    def lay_descriptor_segment(self):
        """The descriptors: unpaged, or paged by a table whose later words refuse."""
        random = self.random
        stack = random.choice((1, 2, 3))
        unpaged = random.random() < 0.7
        bound = random.choice((7, 15, 127, LONGEST_TABLE))
        if "descriptor" in self.goal:
            unpaged = not self.goal.endswith("page") and "descriptor page" not in self.goal
            bound = LONGEST_TABLE
        self.stacks = range(8 * stack, 8 * stack + 8)
        self.descriptors = random.choice((0, 16, 33, 64)) if unpaged else 0
        address = self.descriptors if unpaged else self.descriptor_table()
        self.dbr = Dbr(address, bound, unpaged, stack)

    def descriptor_table(self):
        """Lays the page table of the descriptor segment, sometimes at the end of core."""
        if self.random.random() < 0.5 and not self.goal.startswith("1 "):
            return self.page_table([0])
        self.put(SIZE - 2, [self.page_word(0), self.page_word(None)])
        return SIZE - 2

    def page_word(self, frame):
        """The page table word of a frame, or one that refuses."""
        if frame is not None:
            return 16 * frame << 18 | PRESENT
        code = self.code()
        return code if code < 4 else 16 * self.random.choice((FRAMES, 900)) << 18 | PRESENT

    def code(self):
        """The directed fault of a page table word that refuses, or 4 for one whose frame is past
        the end of core."""
        number = self.goal.partition(" ")[0]
        if "page" in self.goal and self.random.random() < 0.8:
            return int(number) - 16 if number != "1" else 4
        return self.random.randrange(5)

    def page_table(self, frames, count=4):
        """Lays a page table; the pages after those in frames refuse."""
        at = self.tables
        self.tables += TABLE_WORDS
        words = [self.page_word(frame) for frame in frames]
        self.put(at, words + [self.page_word(None) for _ in range(count - len(words))])
        return at

    def add(self, number, base, words, kind, rings, mode, entries=None, table=None):
        """Lays a segment and its descriptor."""
        bound = words // 16 - 1 if table is None else 255
        address = base if table is None else table
        found = sdw(address, digits(rings), mode, bound, entries, table is not None)
        self.put(self.descriptors + 2 * number, found)
        self.segments[number] = Segment(number, base, words, kind, rings, entries)
        return self.segments[number]

    def lay_segments(self):
        random = self.random
        for ring, number in enumerate(self.stacks):
            self.add(number, FRAME + 64 * ring, 64, "stack", (ring, ring, ring), "rw")
        self.start = self.add_code(FRAME + 512, self.ring)
        lower = random.randint(0, self.ring)
        self.add_code(FRAME + 768, lower, random.random() < 0.7)
        other = 7 if self.goal == "20.9 call" else random.randrange(8)
        self.add_code(2 * FRAME, other, random.random() < 0.5, [2])
        for place in range(4):
            self.add_data(3 * FRAME + 128 * place, 128)
        self.add_data(4 * FRAME, 512, [4])
        self.fill(FRAME, 512)
        self.fill(3 * FRAME, 512)
        self.fill(4 * FRAME, 512)

    def add_code(self, base, ring, gate=False, frames=None):
        rings = brackets(self.random, ring)
        if gate:
            rings = (ring, ring, self.random.randint(ring, 7))
        table = self.page_table(frames) if frames else None
        entries = self.random.randint(1, 4) if gate else None
        modes = PRIVILEGED_MODES if rings[0] == 0 else CODE_MODES
        mode = self.random.choice(modes)
        return self.add(self.numbers.pop(), base, 256, "code", rings, mode, entries, table)

    def add_data(self, base, words, frames=None):
        rings = brackets(self.random)
        if self.random.random() < 0.6:
            rings = (self.ring, max(self.ring, rings[1]), 7)
        table = self.page_table(frames) if frames else None
        mode = self.random.choice(MODES)
        return self.add(self.numbers.pop(), base, words, "data", rings, mode, None, table)

    def fill(self, base, count):
        """Fills words of core with random words, pairs among them."""
        for at in range(base, base + count, 2):
            self.put(at, any_word(self.random, self))

    def lay_odd_segments(self):
        """Segments that refuse: by their descriptors, their page tables, or for want of core."""
        data = 3 * FRAME
        pages, more = self.page_table([]), self.page_table([], 8)
        codes = ((f"{16 + code} descriptor", without_f(data, code)) for code in range(4))
        rings = self.random.choice(("077", "777"))
        odd = [
            ("20.0", sdw(data, "426", "rewp", 7)),
            ("20.0", sdw(data, "132", "rew", 7)),
            *codes,
            ("page", sdw(pages, rings, "rewp", 255, None, True)),
            ("page", sdw(more, rings, "rew", 255, None, True)),
            ("1 page", sdw(SIZE - 1, "077", "rewp", 127, None, True)),
            ("1 page", sdw(SIZE, rings, "rew", 63, None, True)),
            ("1 place", sdw(SIZE - 32, rings, "rewp", 63)),
            ("20.15 word", sdw(data, rings, "rew", 0)),
            ("20.1", sdw(data, "000", "rew", 7)),
            ("20.1", sdw(data, "777", "rew", 7)),
            ("20.", sdw(data, rings, "", 7)),
        ]
        for refusal, words in odd:
            number = self.numbers.pop()
            self.put(self.descriptors + 2 * number, words)
            found = Segment(number, data, 64, "odd", (0, 7, 7))
            self.segments[number] = found
            if refusal in self.goal:
                self.aimed.append(found)

    def first_registers(self):
        none = Pointer(0, 0, 0, 0)
        return Registers(
            a=0, q=0, x=(0,) * 8, pr=(none,) * 8, indicators=Indicators(*(False,) * 6),
            ring=self.ring, segment=self.start.number, word=0, dbr=self.dbr,
        )

    def is_viewed(self, dbr):
        """Segment 7 still lies over all of core."""
        place = self.descriptors + 2 * VIEW
        words = tuple(self.memory.words.get(place + offset, 0) for offset in (0, 1))
        return words == VIEW_SDW and dbr == self.dbr and (dbr.unpaged or self.table_stays())

    def table_stays(self):
        """The page table word of the first descriptors is that of frame 0, whatever its marks."""
        ptw = ptw_of(self.memory.words.get(self.dbr.address, 0))
        return ptw.present and ptw.address == 0

    def text(self, words):
        """The image, with these words of core."""
        even, odd = dbr_words(self.dbr)
        lines = [f"core {FRAMES}", f"dbr {even:012o} {odd:012o}"]
        lines.append(f"start {self.start.number:05o} {self.ring} 000000")
        lines += [f"at {at:08o} {word:012o}" for at, word in sorted(words.items()) if word]
        return "\n".join(lines) + "\n"
