"""Breakpoints as an editor sets them: by lines of a source, by names, by addresses, and of words
and registers that change. Each request gives all of its kind anew."""

import pathlib

from ..debugging import BadCondition, NoPlace, NotThere
from ..debugging.world import word_of_line
from ..protocol.members import count, member, objects, optional
from .addresses import address_of, byte_of, word_of
from .channel import Refused

REASONS = {
    "source": "breakpoint", "function": "function breakpoint",
    "instruction": "instruction breakpoint", "data": "data breakpoint",
}


class Breakpoints:
    """The breakpoints of the editor, with those of the session that they are."""

    def __init__(self, adapter):
        self.adapter = adapter
        self.next_number = 1
        self.of_kind = {}
        self.kinds = {}

    def handlers(self):
        return {
            "setBreakpoints": self.set_breakpoints,
            "setFunctionBreakpoints": self.set_function_breakpoints,
            "setInstructionBreakpoints": self.set_instruction_breakpoints,
            "dataBreakpointInfo": self.data_breakpoint_info,
            "setDataBreakpoints": self.set_data_breakpoints,
        }

    @property
    def session(self):
        return self.adapter.session

    def drop(self, key):
        """Drops the breakpoints of one kind, and for lines those of one source."""
        for number in self.of_kind.pop(key, ()):
            self.kinds.pop(number, None)
            try:
                self.session.drop(number)
            except NotThere:
                pass

    def numbered(self):
        self.next_number += 1
        return self.next_number - 1

    def refused(self, why):
        """A breakpoint that can't be set, with the reason."""
        return {"id": self.numbered(), "verified": False, "message": str(why)}

    def added(self, key, identity, found):
        """Keeps which breakpoint of the editor a breakpoint of the session is."""
        self.of_kind.setdefault(key, []).append(found.number)
        self.kinds[found.number] = (REASONS[key[0]], identity)

    def hit(self, stop):
        """The reason and the numbers of the editor's breakpoints of a stop, or None."""
        found = self.kinds.get(stop.number) if stop.reason in ("break", "watch") else None
        return (found[0], [found[1]]) if found else None

    def place(self, key, places, wanted):
        """Sets a breakpoint at places (segment and word), with its condition."""
        if optional(wanted, "hitCondition", str) or optional(wanted, "logMessage", str):
            raise Refused("neither counts of hits nor messages are supported; write a condition")
        condition = optional(wanted, "condition", str)
        identity = self.numbered()
        for segment, word in places:
            found = self.session.add_break(f"{segment:05o}|{word:06o}", condition)
            self.added(key, identity, found)
        return {"id": identity, "verified": True,
                "instructionReference": address_of(*places[0])}

    def each(self, key, wanted, set_one):
        """Sets the breakpoints of a list in place of the earlier ones."""
        self.drop(key)
        found = []
        for one in wanted:
            try:
                found.append(set_one(key, one))
            except (Refused, NoPlace, BadCondition) as why:
                found.append(self.refused(why))
        return {"breakpoints": found}

    # Lines.

    def set_breakpoints(self, arguments):
        source = member(arguments, "source", dict)
        wanted = objects(arguments, "breakpoints") if arguments.get("breakpoints") else []
        reference = optional(source, "sourceReference", int, 0)
        if reference:
            segment = self.adapter.sources.segment_of(reference)
            return self.each(("source", reference), wanted,
                             lambda key, one: self.at_word(key, segment, one))
        path = pathlib.Path(member(source, "path", str))
        return self.each(("source", str(path)), wanted,
                         lambda key, one: self.at_line(key, path, one))

    def at_word(self, key, segment, wanted):
        """A breakpoint in the disassembly of a segment, of which each line is a word."""
        line = count(wanted, "line")
        word = line - self.adapter.first_line
        return {**self.place(key, [(segment, word)], wanted), "line": line}

    def at_line(self, key, path, wanted):
        """A breakpoint at a line of a source, or at the next line that has a word."""
        line = count(wanted, "line") + 1 - self.adapter.first_line
        segments = self.adapter.sources.segments_of(path)
        if not segments:
            raise Refused(f"no segment of the boot text is assembled of {path.name}")
        places, first = [], None
        for segment in segments:
            source = self.session.world.sources.of(segment)
            if source.problem:
                raise Refused(source.problem)
            word = word_of_line(source, line)
            if word is None:
                raise Refused("no word comes from this line or a later one")
            places.append((segment, word))
            first = first or source.places[word]
        return {**self.place(key, places, wanted), "line": first - 1 + self.adapter.first_line}

    # Names and addresses.

    def set_function_breakpoints(self, arguments):
        return self.each(("function",), objects(arguments, "breakpoints"), self.at_name)

    def at_name(self, key, wanted):
        return self.place(key, [self.session.places.find(member(wanted, "name", str))], wanted)

    def set_instruction_breakpoints(self, arguments):
        return self.each(("instruction",), objects(arguments, "breakpoints"), self.at_address)

    def at_address(self, key, wanted):
        byte = byte_of(self.session, member(wanted, "instructionReference", str))
        return self.place(key, [word_of(byte + optional(wanted, "offset", int, 0))], wanted)

    # Words and registers that change.

    def data_breakpoint_info(self, arguments):
        name = member(arguments, "name", str)
        name = self.adapter.variables.watched_name(arguments, name)
        try:
            watched = self.session.watched(name)
        except NoPlace as why:
            return {"dataId": None, "description": f"{name} can't be watched: {why}"}
        return {"dataId": name, "description": watched.text, "accessTypes": ["write"],
                "canPersist": False}

    def set_data_breakpoints(self, arguments):
        return self.each(("data",), objects(arguments, "breakpoints"), self.of_data)

    def of_data(self, key, wanted):
        if optional(wanted, "condition", str) or optional(wanted, "hitCondition", str):
            raise Refused("a watchpoint has no condition")
        if optional(wanted, "accessType", str, "write") != "write":
            raise Refused("changes can be watched, and not reads")
        found, identity = self.session.add_watch(member(wanted, "dataId", str)), self.numbered()
        self.added(key, identity, found)
        return {"id": identity, "verified": True}
