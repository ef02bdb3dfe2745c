"""Drawn folders that boot: procedures of several rings that call each other, with links of each
kind, the console and pages, and an end that is chosen.

Each folder has the segments of `Layout`. Its procedures are pieces of cases_source.py; after them
`main` ends the run in one of the ways of cases_ends.py."""

import subprocess

from .cases_ends import ENDS
from .cases_source import MASK, Source
from .folder import FIRST_CATALOG

CONSOLE = """ entry write,stop,mark,load
write: tra wr
stop: dis 0
mark: tra mk
load: tra ld
 entrybound
wr: mme 0
 rtcd pr6|20
mk: cams 4
 camp 0
 sdbr pr6|40
 absa pr6|1
 rtcd pr6|20
ld: ldbr dbr
 rtcd pr6|20
 even
dbr: oct 0,1770200001
"""
OWN = """ entry first
first: lda 1,dl
 rtcd pr6|20
value: oct 5,6,7
 segdef value,there
 use {storing}
there: oct 10,11,12
"""
HUGE = """ segdef far
 use {storing}
far: bss far0,{words}
"""
MOST_STEPS = 600
OWN_LINKS = ("*text$", "*text$start", "*{storing}$", "*{storing}$mine", "own_$value", "own_$+2")


class Layout:
    """The segments of a folder, in the order of its boot text."""

    def __init__(self, ring, gate_ring):
        top = max(ring, 1)
        self.rings = {
            "main": ("object", "re", ring, ring, ring),
            "sub_": ("object", "re", ring, ring, ring),
            "gate_": ("gate", "re", gate_ring, gate_ring, 7),
            "con_": ("gate", "rep", 0, 0, 7),
            "own_": ("object", "re", ring, ring, 7),
            "data_": ("data", "rw", ring, ring, 7),
            "big_": ("data", "rw", ring, ring, 7),
            "low_": ("data", "rw", 0, 0, 0),
            "view_": ("data", "rw", 0, 7, 7),
            "few_": ("gate", "re", 0, 0, top),
            "near_": ("gate", "re", 0, 0, max(ring - 1, 1)),
            "out_": ("object", "re", 7, 7, 7),
            "wide_": ("object", "re", 0, 7, 7),
            "bad_": ("object", "re", ring, ring, 7),
            "huge1_": ("object", "re", ring, ring, 7),
            "huge2_": ("object", "re", ring, ring, 7),
        }
        self.big_pages = 2
        self.numbers = {name: FIRST_CATALOG + n for n, name in enumerate(self.rings)}

    def boot(self, ring, frames):
        lines = [f"frames {frames}", "work >udd>demo", "library >sss"]
        for name, (kind, mode, *rings) in self.rings.items():
            directory = ">udd>demo" if kind == "object" else ">sss"
            numbers = " ".join(map(str, rings))
            lines.append(f"segment {directory} {name} {name} {kind} {mode} {numbers}")
            if name == "own_":
                lines.append("name other_")
        return "\n".join([*lines, f"start {ring} main$start"]) + "\n"


class FolderCase:
    """Draws one folder and writes it. `end` is the name of its end."""

    def __init__(self, random, end):
        self.random = random
        self.end = end
        self.ring = random.choice(ENDS[end].rings)
        self.gate_ring = random.randint(0, min(self.ring, 6))
        self.layout = Layout(self.ring, self.gate_ring)
        self.storing = random.choice(("link", "static"))
        self.layout.big_pages = 12 if end == "dis after many pages" else random.randint(2, 9)

    def links(self):
        own = [link.format(storing=self.storing) for link in OWN_LINKS]
        return own + ["view_$+1", "other_$value", "data_$+9"]

    def writable(self):
        return ["data_$", "data_$+7", "own_$there", f"*{self.storing}$mine+1", "big_$+1030"]

    def source(self):
        return Source(self.random, self.writable(), self.links(), self.storing)

    def main(self):
        source = self.source()
        source.add("entry start", f"start: ldi {MASK},dl")
        calls = [
            lambda: source.call("sub_$run"),
            lambda: source.call("gate_$serve"),
            source.write,
            lambda: source.pages("big_", self.layout.big_pages),
            lambda: source.pages(None, self.random.randint(2, 15)),
        ]
        source.body(calls, self.random.randint(5, 9))
        ENDS[self.end].add(source, self.layout, self.ring)
        return source.text()

    def sub(self):
        """A procedure of the same ring, with a frame after its caller's."""
        source = self.source()
        source.add("entry start,run", "start: nop", "run: epp6 pr6|128", "epaq 0,ic")
        source.add("lprp4 pr7|22,*au")
        calls = [source.write, lambda: source.call("gate_$serve")]
        source.body(calls, self.random.randint(1, 3))
        source.add("epp6 pr6|-128", "rtcd pr6|20")
        return source.text()

    def gate(self):
        """A gate of a ring that is not higher, with a frame on the stack of that ring."""
        source = Source(self.random, ["*link$mine"], ["*text$", "view_$"], "link")
        source.add("entry start,serve", "start: tra in", "serve: tra in", "entrybound")
        if self.gate_ring == self.ring:
            source.add("in: epp6 pr6|256", "epaq 0,ic", "lprp4 pr7|22,*au")
            end = "epp6 pr6|-256"
        else:
            source.add("in: spri6 pr7|32", "epp6 pr7|64", "epaq 0,ic", "lprp4 pr7|22,*au")
            end = "epp6 pr7|32,*"
        source.body([source.write], self.random.randint(1, 3))
        source.add(end, "rtcd pr6|20")
        return source.text()

    def write(self, folder, program):
        """Writes the folder: sources, their objects, data, and the boot text."""
        far = self.end == "link L6"
        sizes = (200_000, 100_000) if far else (4, 4)
        sources = {
            "main": self.main(),
            "sub_": self.sub(),
            "gate_": self.gate(),
            "con_": CONSOLE,
            "own_": OWN.format(storing=self.storing),
            "few_": " entry stop\nstop: dis 0\n entrybound\n",
            "near_": " entry stop\nstop: dis 0\n entrybound\n",
            "out_": " entry go\ngo: tra *\n",
            "wide_": " entry go\ngo: rtcd pr6|20\n",
            "huge1_": HUGE.format(storing="link", words=sizes[0]),
            "huge2_": HUGE.format(storing="link", words=sizes[1]),
        }
        for name, text in sources.items():
            (folder / f"{name}.alm").write_text(text)
            assemble(program, folder, name)
        random = self.random
        for name, words in (("data_", 64), ("low_", 16), ("view_", 16), ("bad_", 3)):
            (folder / name).write_bytes(random.randbytes(9 * words // 2 // 9 * 9))
        (folder / "big_").write_bytes(random.randbytes(4608 * self.layout.big_pages))
        frames = random.choice((24, 24, 24, 25, 30))
        (folder / "boot").write_text(self.layout.boot(self.ring, frames))


def assemble(program, folder, name):
    done = subprocess.run([program, "alm", name], cwd=folder, capture_output=True)
    if done.returncode:
        raise RuntimeError(f"{folder}/{name}.alm: {done.stderr.decode().strip()}")
