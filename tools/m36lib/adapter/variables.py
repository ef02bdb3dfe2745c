"""Frames, scopes and variables, and expressions.

What a variable holds is asked of the program when it is shown. References are valid up to the next
move."""

from ..debugging import BadCondition, Condition, NoPlace
from ..debugging.watched import is_register
from ..disassemble import disassemble
from ..protocol.members import count, member, optional
from .addresses import address_of
from .channel import Refused
from .moves import CONSOLE_MOVES
from .ring_words import asked, rights_of

GROUP = 64
GROUPS = 64
INDICATORS = ("zero", "negative", "carry", "overflow", "mask", "tally")


def variable(name, value, **more):
    """A variable without parts."""
    return {"name": name, "value": value, "variablesReference": 0, **more}


class Variables:
    """What is shown of the machine at a stop."""

    def __init__(self, adapter):
        self.adapter = adapter
        self.shown = {}
        self.next_number = 1

    def handlers(self):
        return {
            "stackTrace": self.stack_trace, "scopes": self.scopes, "variables": self.variables,
            "evaluate": self.evaluate,
        }

    @property
    def session(self):
        return self.adapter.session

    def forget(self):
        """After a move the references are those of an earlier stop."""
        self.shown = {}

    def keep(self, what):
        """A reference to what can be shown: a function that gives its variables, or a frame."""
        self.shown[self.next_number] = what
        self.next_number += 1
        return self.next_number - 1

    # Frames and scopes.

    def stack_trace(self, arguments):
        member(arguments, "threadId", int)
        start = optional(arguments, "startFrame", int, 0)
        levels = optional(arguments, "levels", int, 0)
        frames = self.session.frames()
        last = start + levels if levels > 0 else len(frames)
        found = [self.frame(it, number == 0) for number, it in enumerate(frames)]
        return {"stackFrames": found[max(start, 0) : last], "totalFrames": len(frames)}

    def frame(self, frame, is_innermost):
        """A frame as the protocol has it."""
        source, line = self.adapter.sources.of_place(frame.segment, frame.word)
        return {
            "id": self.keep((frame, is_innermost)),
            "name": f"{frame.name}, ring {frame.ring}",
            "source": source,
            "line": line,
            "column": self.adapter.first_column,
            "instructionPointerReference": address_of(frame.segment, frame.word),
        }

    def scopes(self, arguments):
        found = self.shown.get(count(arguments, "frameId"))
        if not isinstance(found, tuple):
            raise Refused("there is no such frame at this stop")
        frame, is_innermost = found
        parts = [("Rings", lambda: self.rings(frame, is_innermost)),
                 ("Segment", lambda: self.segment(frame))]
        if is_innermost:
            parts.insert(0, ("Registers", self.registers))
        return {"scopes": [self.scope(name, what) for name, what in parts]}

    def scope(self, name, what):
        hint = {"presentationHint": "registers"} if name == "Registers" else {}
        return {"name": name, "variablesReference": self.keep(what), "expensive": False, **hint}

    def variables(self, arguments):
        what = self.shown.get(count(arguments, "variablesReference"))
        if not callable(what):
            raise Refused("there is no such variable at this stop")
        found = what()
        start = optional(arguments, "start", int, 0)
        wanted = optional(arguments, "count", int, 0)
        return {"variables": found[start : start + wanted] if wanted > 0 else found}

    # Registers.

    def registers(self):
        registers = self.session.registers
        place = f"{registers.ring} {self.session.place}"
        found = [
            variable("a", f"{registers.a:012o}", evaluateName="a"),
            variable("q", f"{registers.q:012o}", evaluateName="q"),
            self.indicators(registers),
        ]
        found += [variable(f"x{number}", f"{value:06o}", evaluateName=f"x{number}")
                  for number, value in enumerate(registers.x)]
        found += [self.pointer(number, pointer) for number, pointer in enumerate(registers.pr)]
        return [*found, variable("next", f"{place}, {self.session.place_name()}")]

    def indicators(self, registers):
        text = registers.indicators.text()
        on = [name for name in INDICATORS if getattr(registers.indicators, name)]
        return variable("ind", f"{text} ({' '.join(on)})" if on else text)

    def pointer(self, number, pointer):
        """A pointer register, with its parts."""
        name = f"pr{number}"
        parts = {part: getattr(pointer, part) for part in ("segment", "ring", "word", "bit")}
        names = self.session.world.names

        def members():
            return [variable(part, f"{value:o}", evaluateName=f"{name}.{part}")
                    for part, value in parts.items()]

        return {
            "name": name,
            "value": f"{pointer.text()}, {names.word(pointer.segment, pointer.word)}",
            "variablesReference": self.keep(members),
            "memoryReference": address_of(pointer.segment, pointer.word),
        }

    # Rings.

    def rings(self, frame, is_innermost):
        """Who executes, what each ring may do with the segment, and what the next step asks."""
        found = [variable("executes", f"ring {frame.ring}")]
        header = self.header(frame.segment)
        if header:
            name = self.session.world.names.segment(frame.segment)
            found += [variable(f"ring {ring}", f"{name}: {rights_of(header, ring)}")
                      for ring in range(8)]
        if is_innermost and not self.session.ended:
            found += [variable(question, answer) for question, answer in asked(self.session)]
        return found

    def header(self, segment):
        """What the tables have of a segment at the start of the run, or None."""
        headers = self.session.world.segments()
        return next((header for header in headers if header.number == segment), None)

    # Segments.

    def segment(self, frame):
        """The segment of a frame, and its words."""
        header = self.header(frame.segment)
        if header is None:
            return [variable("number", f"{frame.segment:05o}")]
        letters = zip("rewp", (header.read, header.execute, header.write, header.privileged))
        mode = "".join(letter for letter, on in letters if on) or "null"
        found = [
            variable("number", f"{header.number:05o}"),
            variable("name", header.name),
            variable("kind", header.kind or "segment"),
            variable("mode", mode),
            variable("brackets", f"{header.r1} {header.r2} {header.r3}"),
            variable("words", f"{header.words:o} octal"),
        ]
        return found + self.groups(header.number, 0, header.words)

    def groups(self, segment, first, count_of_words):
        """The words of a segment in groups, and these in groups where there are many."""
        size = GROUP if count_of_words <= GROUP * GROUPS else GROUP * GROUPS
        found = []
        for start in range(first, first + count_of_words, size):
            last = min(start + size, first + count_of_words)
            found.append({
                "name": f"{start:06o} to {last - 1:06o}", "value": "",
                "variablesReference": self.keep(self.group(segment, start, last)),
                "memoryReference": address_of(segment, start),
            })
        return found

    def group(self, segment, start, last):
        if last - start > GROUP:
            return lambda: self.groups(segment, start, last - start)
        return lambda: [self.word(segment, start + offset, value) for offset, value in enumerate(
            self.session.words(segment, start, last - start))]

    def word(self, segment, word, value):
        """A word of a segment."""
        place = f"{segment:05o}|{word:06o}"
        shown = "absent" if value is None else f"{value:012o}, {disassemble(value)}"
        return variable(place, shown, evaluateName=f"[{place}]",
                        memoryReference=address_of(segment, word))

    def watched_name(self, arguments, name):
        """What is watched where a variable of this name is."""
        if optional(arguments, "variablesReference", int, 0) and name in (
                "segment", "ring", "word", "bit"):
            raise Refused("the whole pointer register can be watched")
        return name.strip("[] ")

    # Expressions.

    def evaluate(self, arguments):
        text = member(arguments, "expression", str).strip()
        if len(text) > 256:
            raise Refused("the expression is too long")
        name = text.removeprefix("$")
        if is_register(name):
            found = next(it for it in self.registers() if it["name"] == name)
            return {"result": found["value"], "variablesReference": found["variablesReference"]}
        if optional(arguments, "context", str) == "repl":
            if text == "account":
                return {"result": self.account(), "variablesReference": 0}
            if text in CONSOLE_MOVES:
                self.adapter.moves.begin_from_console(text)
                return {"result": "going back", "variablesReference": 0}
        return self.value_of(text)

    def account(self):
        """What the next step asks and does, by the rules."""
        return "\n".join(sentence.text for sentence in self.session.account().sentences)

    def value_of(self, text):
        """The value of an expression, or the word at a place."""
        try:
            value = Condition(text, self.session.places).value(self.session.view())
            return {"result": f"{value:o}", "variablesReference": 0}
        except BadCondition as why:
            reason = why
        try:
            segment, word = self.session.places.find(text)
        except NoPlace as why:
            raise Refused(f"{why}; {reason}") from None
        (value,) = self.session.words(segment, word)
        found = self.word(segment, word, value)
        return {"result": f"{found['name']} {found['value']}", "variablesReference": 0,
                "memoryReference": found["memoryReference"]}
