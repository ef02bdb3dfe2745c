"""What a terminal shows at a stop: source, registers, rings, calls, the last trace lines and what
the next instruction asks, with colours. All text that comes from files is made plain before."""

import os
import re
import shutil

from ..recorder import changes
from . import show
from .fitting import cut, heights, wrapped

RING_COLOURS = ("31", "33", "35", "32", "36", "34", "95", "94")
LEAST_HEIGHT, SOURCE_SHARE, TRACED, CALLS_SHOWN = 24, 3, 3, 4
LINES_OF_PROMPT, LEAST_ROOM, LEAST_SOURCE, MOST_RULE = 2, 8, 4, 120
POINTERS = "pointers"
SHOWN = ("source", "registers", POINTERS, "rings", "calls", "trace", "next")
KEPT_FIRST = ("next", "source", "registers", POINTERS, "trace", "calls", "rings")
# A blank between words at which a line is not wrapped.
JOINED = "\xa0"
RING = re.compile(f"ring{JOINED}([0-7])")


class Paint:
    """Puts colours around texts, or leaves them as they are."""

    def __init__(self, is_on):
        self.is_on = is_on

    def put(self, code, text):
        return f"\x1b[{code}m{text}\x1b[0m" if self.is_on and text else text

    def strong(self, text):
        return self.put("1", text)

    def faint(self, text):
        return self.put("2", text)

    def changed(self, text):
        return self.put("1;33", text) if self.is_on else f"*{text}"

    def refused(self, text):
        return self.put("1;31", text)

    def ring(self, ring):
        return self.put("1;" + RING_COLOURS[ring], f"ring {ring}")


def colours_wanted(stream):
    """Whether colours are to be written to a stream."""
    return (stream.isatty() and "NO_COLOR" not in os.environ
            and os.environ.get("TERM", "dumb") != "dumb")


class Screen:
    """Draws the stops of a session; keeps the registers of the last one, to mark what changed."""

    def __init__(self, session, paint):
        self.session = session
        self.paint = paint
        self.before = session.registers

    def lines(self, spare=0):
        """The lines of a stop, fitted to the window; `spare` of its lines are left for others. In a
        small window what comes next and the source are kept, and of the rest what there is room
        for."""
        size = shutil.get_terminal_size((100, LEAST_HEIGHT))
        width, room = size.columns, max(LEAST_ROOM, size.lines - LINES_OF_PROMPT - spare)
        panes = self.panes(width, max(5, (size.lines - 8) // SOURCE_SHARE))
        given = dict(zip(KEPT_FIRST, heights(room, [limits(name, panes[name], room)
                                                    for name in KEPT_FIRST])))
        lines = []
        for name in SHOWN:
            found = self.fitted(name, panes[name], given[name], width)
            lines += found if name == POINTERS or not found else [
                self.rule(self.title(name), width), *found]
        self.before = self.session.registers
        return lines

    def panes(self, width, source_count):
        """The lines of each pane, not yet fitted to the height."""
        registers = self.registers()
        return {
            "source": self.source(source_count),
            "registers": registers[:2],
            POINTERS: registers[2:],
            "rings": self.rings(width),
            "calls": self.calls(),
            "trace": self.trace(),
            "next": self.next_lines(width),
        }

    def fitted(self, name, lines, height, width):
        """The lines of a pane of this height in lines, its heading among them."""
        count = height - (name != POINTERS)
        if count <= 0:
            return []
        if name == "source" and count < len(lines):
            lines = self.source(count)
        elif name == "trace":
            lines = lines[-count:]
        elif name == "next" and count < len(lines):
            word = "why" if self.session.ended else "will"
            left = f"  .. {len(lines) - count + 1} more lines; `{word}` shows all"
            lines = [*lines[: count - 2], left, lines[-1]]
        return [cut(line, width) for line in lines[:count]]

    def rule(self, title, width):
        return self.paint.faint("-- ") + self.paint.strong(title) + " " + self.paint.faint(
            "-" * max(0, min(width, MOST_RULE) - len(title) - 4))

    def title(self, name):
        """The heading of a pane."""
        if name == "next" and self.session.ended:
            return "why"
        if name != "source":
            return name
        file, line = self.session.source_line()
        return f"{file}:{line}" if file else "instructions"

    def source(self, count):
        registers = self.session.registers
        found = show.listing(self.session, registers.segment, registers.word, count,
                             self.session.active_breaks())
        return [self.paint.strong(line) if line.startswith(show.HERE) else line for line in found]

    def registers(self):
        """A, Q and indicators, index registers, and pointer registers, two in a line."""
        registers = self.session.registers
        changed = {change.register for change in changes(self.before, registers)}
        mark = self.paint.changed

        def shown(name, text):
            return mark(text) if name in changed else text

        first = [("a", f"a {registers.a:012o}"), ("q", f"q {registers.q:012o}"),
                 ("indicators", f"ind {registers.indicators.text()}")]
        index = [(f"x{number}", f"{value:06o}") for number, value in enumerate(registers.x)]
        lines = ["  ".join(shown(*each) for each in first),
                 "x " + " ".join(shown(*each) for each in index)]
        texts = show.register_lines(self.session)[-8:]
        width = max(map(len, texts))
        for number in range(0, 8, 2):
            pair = [shown(f"pr{each}", texts[each].ljust(width)) for each in (number, number + 1)]
            lines.append("  ".join(pair).rstrip())
        return lines

    def rings(self, width):
        """The ring that executes, and the rings in which the pointer registers ask."""
        registers = self.session.registers
        asking = {}
        for number, pointer in enumerate(registers.pr):
            asking.setdefault(max(pointer.ring, registers.ring), []).append(f"pr{number}")
        asked = ", ".join(f"ring {ring} by {' '.join(names)}"
                          for ring, names in sorted(asking.items()))
        since = self.session.ring_since()
        line = f"ring {registers.ring} executes since step {since}; asked in: {asked}"
        return [self.with_rings(each)
                for each in wrapped(line.replace("ring ", "ring" + JOINED), width)]

    def with_rings(self, line):
        """A line with its rings in their colours."""
        return RING.sub(lambda found: self.paint.ring(int(found[1])), line)

    def calls(self):
        lines = show.frame_lines(self.session)
        frames = self.session.frames()
        shown = []
        for line, frame in list(zip(lines, frames))[:CALLS_SHOWN]:
            plain_ring = f"ring {frame.ring}"
            shown.append(line.replace(plain_ring, self.paint.ring(frame.ring), 1))
        if len(lines) > CALLS_SHOWN:
            shown.append(self.paint.faint(f"and {len(lines) - CALLS_SHOWN} more"))
        return shown

    def trace(self):
        step = self.session.step
        return self.session.trace(step - TRACED + 1, step) or ["(no step yet)"]

    def next_lines(self, width):
        return [self.coloured(part, line) for line in show.stop_lines(self.session)
                for part in wrapped(line, width)]

    def coloured(self, part, line):
        """A part of a line, in the colour that the line has."""
        if "? No," in line or "The step ends in fault" in line:
            return self.paint.refused(part)
        if not line.startswith(" "):
            return self.paint.strong(part)
        return part


def limits(name, lines, room):
    """The fewest and the most lines of a pane, its heading among them."""
    most = len(lines) + (name != POINTERS)
    if name == "next":
        return min(most, room - LEAST_SOURCE), most
    if name == "source":
        return min(most, LEAST_SOURCE), most
    if name in ("trace", "calls"):
        return 2, most
    return most, most
