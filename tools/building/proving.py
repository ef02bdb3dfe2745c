"""Follows `rt all check` while it proves: which crates are done, which are being proved, and how
long the rest will take."""

import os
import re
import time

from . import crates, running

# A check takes about OF_EACH seconds, and OF_A_LINE more for each line, on one processor of 2026.
# OF_A_LINE is replaced by what this run measures.
OF_EACH, OF_A_LINE = 6.0, 0.03
# The compilation of the proved program.
OF_BUILD = 90.0
# The pass over all sources with which `rt all check` begins.
OF_PASS = 160.0
# The memory that one check may take, in kB, and that which that pass takes with some to spare.
MEMORY, MEMORY_OF_PASS = 3_000_000, 10_000_000


def at_once():
    """Returns how many crates are proved side by side: one a processor that has the memory."""
    with open("/proc/meminfo", encoding="ascii") as lines:
        found = re.search(r"^MemAvailable: +(\d+)", lines.read(), re.M)
    if not found or int(found[1]) < MEMORY_OF_PASS:
        return 1
    return max(1, min(len(os.sched_getaffinity(0)), int(found[1]) // MEMORY))


def crates_in(commands):
    """Returns the names of the crates that some commands of the kit prove."""
    names = []
    for words in commands:
        # (with this word nothing is proved: it is the quick pass over all sources)
        if "--crate-name" in words[:-1] and "--only" not in words:
            names.append(words[words.index("--crate-name") + 1])
    return sorted(set(names))


class Estimate:
    """How long the crates that are left will take, from their lines and from what was measured."""

    def __init__(self, root, known, names, lanes):
        self.lanes = lanes
        own = set(names)
        self.below = {it: set(crates.below(known, it)[0]) & own - {it} for it in names}
        # (the order in which rt takes them)
        self.order = sorted(names, key=lambda it: len(self.below[it]))
        self.lines = {}
        for name in names:
            files = crates.files(root, name, ("src", "specs", "proofs"))
            self.lines[name] = sum(path.read_bytes().count(b"\n") for path in files)
        self.measured = [(OF_A_LINE * 20_000, 20_000)]

    def learn(self, name, seconds):
        """Notes how long the proof of a crate took."""
        self.measured.append((max(0.0, seconds - OF_EACH), self.lines[name]))

    def seconds_of(self, name):
        """Returns how long a crate takes. What was measured last counts most."""
        recent = [self.measured[0], *self.measured[1:][-12:]]
        much, lines = (sum(it[n] for it in recent) for n in (0, 1))
        return OF_EACH + self.lines[name] * much / lines

    def left(self, done, running):
        """Returns the seconds until all is proved and built. `running` has the seconds that each
        crate has been proved for. A crate waits for those below it, and for a free lane."""
        free, ends = [0.0] * self.lanes, {}
        for name in sorted(self.order, key=lambda it: it not in running):
            if name in done:
                continue
            lane = free.index(min(free))
            begin = max([free[lane], *(ends.get(it, 0.0) for it in self.below[name])])
            rest = self.seconds_of(name) - running.get(name, 0.0)
            ends[name] = free[lane] = begin + max(rest, 5.0)
        begins = OF_PASS if self.lanes > 1 and not done and not running else 0.0
        return begins + max([0.0, *ends.values()]) + OF_BUILD


def is_refused(said):
    """Returns whether what the log says of a crate that is done is a refusal. Of one that was
    proved before it has no line but rt's own."""
    lines = [line for line in said.split("\n") if line and not line.startswith("rt: ")]
    return bool(lines) and not any(line.startswith("logic=proved") for line in lines)


class Run:
    """What the log of `rt all check` says so far. A crate has its heading there once it is done."""

    def __init__(self, log):
        self.log, self.done, self.refused, self.begun = log, [], None, {}
        self.waiting = ""

    def look(self, parent):
        """Reads the log anew, notes what is being proved, and returns the crates that are done
        since the last look with the seconds that each took."""
        now = time.monotonic()
        for name in crates_in(running.children(parent).values() if parent else ()):
            self.begun.setdefault(name, now)
        with open(self.log, encoding="utf-8", errors="replace") as it:
            text = it.read().partition("== summary\n")[0]
        sections = re.split(r"^== (\w+)\n", text, flags=re.M)
        new = []
        for name, said in zip(sections[1::2], sections[2::2]):
            if name not in self.done:
                self.done.append(name)
                new.append((name, now - self.begun.get(name, now)))
                if is_refused(said):
                    self.refused = self.refused or name
        last = text.rstrip().rpartition("\n")[2]
        self.waiting = last if re.search(r"^rt: .*waiting", last) else ""
        return new

    def running(self):
        """Returns the crates that are being proved, with the seconds since each began."""
        now = time.monotonic()
        return {it: now - at for it, at in self.begun.items() if it not in self.done}

    def said_of(self, name):
        """Returns what the log says of a crate."""
        with open(self.log, encoding="utf-8", errors="replace") as it:
            found = re.search(rf"^== {name}\n(.*?)(?=^== |\Z)", it.read(), re.M | re.S)
        return found[1] if found else ""

    def failed(self):
        """Returns the first crate that the summary calls failed, or None."""
        with open(self.log, encoding="utf-8", errors="replace") as it:
            found = re.search(r"^(\w+): failed", it.read().partition("== summary\n")[2], re.M)
        return self.refused or (found[1] if found else None)
