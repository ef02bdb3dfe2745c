"""Sources of drawn folders: pieces of programs that keep PR4, PR6 and PR7 as their procedure has
them, and that go on to the next piece.

A procedure has its frame at PR6 (words 0 to 17 keep pointer registers, 20 and 21 where a callee
returns, 30 to 60 are free), the links of its object at PR4 and the stack of its ring at PR7."""

from .made_images import its
from .table import TABLE

MASK = 2048
PLAIN = ("R", "R2", "W", "W2", "Wl", "Wr", "Rw", "Rwl")
UNSAFE = ("Ldi", "Div", "LprpN", "SpriN", "SpbpN", "Rtcd", "Ldbr", "Sdbr", "Stcd")
DATA_ROWS = [
    row for row in TABLE.values() if row.operand in PLAIN and row.effect not in UNSAFE
]
ADDRESS_ROWS = [row for row in TABLE.values() if row.operand == "A" and row.name[:2] != "ep"]
ADDRESS_ROWS = [row for row in ADDRESS_ROWS if not row.privileged]
WRITING = ("W", "W2", "Wl", "Wr", "Rw", "Rwl")
CONDITIONS = ("tze", "tnz", "tmi", "tpl", "trc", "tnc", "tmoz", "tpnz", "tov", "ttf", "tra")
TALLIES = ("i", "id", "di", "ad", "sd")
FIRST_FREE, FREE = 30, 30
SPARE = 512
TEXTS = ("hello", "a\\b", "~ {}", "0123456789")


def octal_pair(segment, word=0, ring=0, tag=0):
    """The line of an ITS pair in a source."""
    even, odd = its(segment, word, ring, 0, tag)
    return f" oct {even:o},{odd:o}"


class Source:
    """The source of a procedure. `links` are links to words that it may read and write."""

    def __init__(self, random, links=(), readable=(), storing="link"):
        self.random = random
        self.links = list(links)
        self.readable = list(readable)
        self.lines = []
        self.constants = []
        self.storing = storing
        self.labels = 0

    def add(self, *lines):
        self.lines += [line if line.endswith(":") or ": " in line else " " + line for line in lines]

    def label(self):
        self.labels += 1
        return f"l{self.labels}"

    def constant(self, *lines):
        """The label of words at the end of the text, the first of them at an even word."""
        label = self.label()
        self.constants += [" even", f"{label}:{lines[0]}", *lines[1:]]
        return label

    def text(self):
        return "\n".join([*self.lines, *self.constants, *self.words()]) + "\n"

    def words(self):
        """The static words of the procedure, which it names as its own section."""
        return [f" use {self.storing}", "mine: oct 1,2,3,4", " segdef mine", " end"]

    # Pieces.

    def free(self):
        return f"pr6|{FIRST_FREE + self.random.randrange(FREE)}"

    def number(self):
        words = (self.random.getrandbits(36) for _ in range(2))
        return self.constant(" oct " + ",".join(f"{word:o}" for word in words))

    def operand(self, row):
        """An operand for an instruction, after lines that prepare it."""
        random = self.random
        kind = random.randrange(8)
        if kind == 0 and row.direct:
            return f"{random.randrange(1 << 18)},{random.choice(('du', 'dl'))}"
        if kind == 1 and row.operand not in WRITING:
            return self.number()
        if kind == 2:
            index = random.randrange(8)
            self.add(f"eax{index} {random.randrange(FREE)}")
            return f"pr6|{FIRST_FREE},x{index}"
        if kind == 3:
            self.add(f"epp2 {self.free()}", "spri2 pr6|28")
            return f"pr6|28,{random.choice(('*', 'n*'))}"
        if kind == 4:
            tally = random.randrange(SPARE) + SPARE << 18 | random.randrange(4096) << 6 | 1
            self.add(f"ldq {self.constant(f' oct {tally:o}')}", "stq pr6|29")
            return f"pr6|29,{random.choice(TALLIES)}"
        if kind == 5 and row.operand not in WRITING:
            return self.link_to(self.readable + self.links)
        if kind == 6:
            return self.link_to(self.links)
        return self.free()

    def link_to(self, links):
        return self.random.choice(links) if links else self.free()

    def compute(self):
        """Some instructions of data, and one of an address."""
        for _ in range(self.random.randint(2, 6)):
            row = self.random.choice(DATA_ROWS)
            operand = self.operand(row)
            self.add(f"{row.name} {operand}")
        row = self.random.choice(ADDRESS_ROWS)
        self.add(f"{row.name} {self.random.randrange(100)}")

    def divide(self):
        self.add(f"div {self.random.randint(2, 9)},dl", f"mpy {self.random.randint(2, 9)},dl")

    def indicators(self):
        self.add(f"sti {self.free()}", f"ldi {MASK + self.random.randrange(8) * 16384},dl")

    def pointers(self):
        """Pointers that are formed, stored and loaded again."""
        register = self.random.choice("01235")
        self.add(f"epp{register} {self.free()}", f"spri{register} pr6|26")
        self.add(f"epp{self.random.choice('01235')} pr6|26,*", f"spbp{register} pr6|24")
        self.add(f"lprp{self.random.choice('01235')} {self.constant(' oct 15000040')}")
        self.add("stcd pr6|22", "epbp1 pr6|3")

    def transfers(self):
        there = self.label()
        self.add(f"{self.random.choice(CONDITIONS)} {there}", f"lda {self.random.randrange(9)},dl")
        self.add(f"{there}: nop 0,dl")
        after = self.label()
        self.add(f"{self.random.choice(('tsx3', 'tsp3'))} {after}", f"{after}: nop")

    def loop(self):
        again = self.label()
        self.add("eax5 3", f"{again}: asx5 {self.free()}", "sblx5 1,du", f"tpnz {again}")

    def call(self, entry):
        """A call that keeps the pointer registers."""
        self.add("spri pr6|0", "stcd pr6|20", f"call6 {entry}", "lpri pr6|0")

    def write(self, count=None):
        """Characters to the console."""
        random = self.random
        lines = [f' aci "{random.choice(TEXTS)}"', f" oct {random.getrandbits(36):o}"]
        label = self.constant(*lines)
        self.add(f"epp2 {label}", f"lda {random.randrange(13) if count is None else count},dl")
        self.call("con_$write")

    def pages(self, segment, pages):
        """A word of each page of a segment, or of the stack, is written or read."""
        again = self.label()
        base = "pr7|200" if segment is None else "pr3|0"
        if segment is not None:
            self.add(f"epp3 {segment}$")
        name = self.random.choice(("stx1", "asx1", "ldq", "szn"))
        self.add("eax1 0", f"{again}: {name} {base},x1")
        self.add("eax1 1024,x1", f"cmpx1 {1024 * pages},du", f"tnz {again}")

    def body(self, calls, pieces):
        """Some pieces in a random order."""
        makers = [self.compute] * 3 + [self.divide, self.indicators, self.pointers, self.transfers]
        makers += [self.loop, *calls]
        for _ in range(pieces):
            self.random.choice(makers)()
