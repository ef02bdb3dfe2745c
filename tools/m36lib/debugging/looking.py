"""The commands of the debugger that show something and move nothing."""

import re

from . import show
from .command_words import (
    Refused, console_lines, count_of, examined_count, is_place, no_more, numbers_in, split_form,
    within_segment,
)
from .conditions import BadCondition, Condition, register_value
from .lines import text_of
from .listing import Listing
from .places import NoPlace
from .watched import is_register

VALUE_FORMS = {
    "o": lambda value: f"{value:o} octal",
    "d": lambda value: f"{show.signed(value, 36)} decimal",
    "c": lambda value: f'"{show.characters(value)}"',
}
CODE_LISTED, TRACED, MOST_TRACED = 10, 10, 100_000
EXAMINE = re.compile(r"/([0-9]*)([a-z]?)$")
FORMATS = {
    "o": show.octal_lines,
    "d": show.decimal_lines,
    "c": show.character_lines,
    "i": show.instruction_words,
    "p": show.pair_lines,
}
INFO = {
    "breakpoints": "breakpoints", "b": "breakpoints", "watchpoints": "breakpoints",
    "registers": "registers", "r": "registers", "regs": "registers", "all-registers": "registers",
    "frame": "backtrace", "stack": "backtrace", "s": "backtrace",
    "rings": "rings", "segments": "segments", "files": "segments",
    "source": "source", "line": "line", "program": "why", "console": "console",
    "display": "display",
}
INFO_LINES = {
    "breakpoints": show.breakpoint_lines,
    "source": show.source_facts,
    "line": show.instruction_lines,
}
SUBJECTS = "breakpoints, registers, frame, rings, segments, source, line, console, display"


class Looking(Listing):
    """These commands, for front.Front: it has the session, `write`, and what has been shown."""

    def do_here(self, rest):
        no_more(rest)
        self.show_stop()

    def do_will(self, rest):
        no_more(rest)
        if self.session.ended:
            raise Refused("the run has ended; `why` explains its last step")
        self.write_all(show.account_lines(self.session.account()))

    def do_why(self, rest):
        no_more(rest)
        stop = self.session.stop
        self.write(stop.text or show.steps_text(self.session.step))
        account, trace = self.session.last_account()
        if account:
            self.write(trace)
            self.write_all(show.account_lines(account))

    def do_disassemble(self, rest):
        words = rest.split()
        count = CODE_LISTED
        if len(words) > 1:
            count = examined_count(words.pop())
        segment, word = self.session.places.find(" ".join(words))
        breaks = self.session.active_breaks()
        count, is_cut = within_segment(word, count)
        self.write_all(show.code_lines(self.session, segment, word, count, breaks))
        self.write_all(is_cut)

    def do_registers(self, rest):
        no_more(rest)
        self.write_all(show.register_lines(self.session))

    def do_print(self, rest):
        form, text = split_form(rest)
        if not text:
            raise Refused("print what?")
        self.write(self.printed(text, form))

    def printed(self, text, form=None):
        """A register, a place with its word, or the value of an expression."""
        if form:
            return self.formed(text, form)
        name = text.removeprefix("$")
        if is_register(name):
            return f"{name} = {self.session.watch_value(self.session.watched(name))}"
        if is_place(text):
            segment, word = self.session.places.find(text)
            (found,) = self.session.words(segment, word)
            name = self.session.world.names.word(segment, word)
            return f"{name} = {text_of(segment, word)}: {show.word_text(found)}"
        value = Condition(text, self.session.places).value(self.session.view())
        return f"{text} = {value:o} octal, {value} decimal"

    def formed(self, text, form):
        """A value in one form: of an expression, of a register, or of the word at a place."""
        if form[1:] not in VALUE_FORMS:
            raise Refused(f"{form} is no form of a value: /o octal, /d decimal, /c characters; "
                          "`x` shows words also as instructions and pairs")
        expression = text
        if is_register(text.removeprefix("$")) and register_value(text.removeprefix("$")) is None:
            raise Refused(f"{text} is no number; `print {text}` shows it")
        if is_place(text):
            expression = f"[{text}]"
        value = Condition(expression, self.session.places).value(self.session.view())
        return f"{text} = {VALUE_FORMS[form[1:]](value)}"

    def do_examine(self, rest):
        text, rest = split_form(rest)
        form = EXAMINE.match(text) if text else None
        if text and not form:
            raise Refused("the form is /NF: a count, and o, d, c, i or p")
        count = examined_count(form[1]) if form and form[1] else 1
        letter = (form[2] if form else "") or "o"
        if letter not in FORMATS:
            raise Refused(f"{letter} is no form: o octal, d decimal, c characters, i instructions, "
                          "p pairs")
        if not rest and self.last_examined and not form:
            (segment, word), count, letter = self.last_examined
        else:
            segment, word = self.session.places.find(rest or ".")
        if letter == "p":
            count, word = 2 * count, word - word % 2
        count, is_cut = within_segment(word, count)
        found = self.session.words(segment, word, count)
        self.write_all(FORMATS[letter](self.session, segment, word, found))
        self.write_all(is_cut)
        self.last_examined = (segment, word + count), count // (1 + (letter == "p")), letter

    def do_backtrace(self, rest):
        lines = show.frame_lines(self.session)
        self.write_all(lines[: count_of(rest, len(lines))])

    def do_frame(self, rest):
        number = count_of(rest, self.frame_number, least=0)
        lines = show.frame_lines(self.session)
        if number >= len(lines):
            raise Refused("there is no such call")
        self.frame_number = number
        self.listed_to = None
        frame = self.session.frames()[number]
        self.write(lines[number])
        self.write(show.instruction_line(self.session, frame.segment, frame.word))

    def do_up(self, rest):
        no_more(rest)
        outer = self.frame_number + 1
        if outer >= len(self.session.frames()):
            raise Refused("this is the outermost call")
        self.do_frame(str(outer))

    def do_down(self, rest):
        no_more(rest)
        if not self.frame_number:
            raise Refused("this is the innermost call")
        self.do_frame(str(self.frame_number - 1))

    def do_display(self, rest):
        if not rest:
            self.show_displays()
            return
        form, text = split_form(rest)
        if not text:
            raise Refused("display what?")
        if text.startswith("x/"):
            raise Refused("the form is after the name, as in `display/i .`")
        self.write(f"{self.next_display}: {self.displayed(form, text)}")
        self.displays[self.next_display] = form, text
        self.next_display += 1

    def displayed(self, form, text):
        """A value, or with /i the instruction at a place."""
        if form != "/i":
            return self.printed(text, form)
        (line,) = show.instruction_words(self.session, *self.session.places.find(text), [None])
        return line

    def do_undisplay(self, rest):
        numbers = set(numbers_in(rest)) or set(self.displays)
        missing = numbers.difference(self.displays)
        if missing:
            raise Refused(f"there is no display {min(missing)}")
        for number in numbers:
            del self.displays[number]

    def show_displays(self):
        """Shows the values that are shown at each stop."""
        for number, (form, text) in self.displays.items():
            try:
                self.write(f"{number}: {self.displayed(form, text)}")
            except (NoPlace, BadCondition) as why:
                self.write(f"{number}: {text}: {why}")

    def do_rings(self, rest):
        no_more(rest)
        self.write_all(show.ring_lines(self.session))

    def do_segments(self, rest):
        no_more(rest)
        self.write_all(show.segment_lines(self.session))

    def do_trace(self, rest):
        last = self.session.step
        first = last - min(count_of(rest, TRACED), MOST_TRACED) + 1
        self.write_all(self.session.trace(first, last))

    def do_console(self, rest):
        no_more(rest)
        found = self.session.history.services_between(1, self.session.step)
        text = "".join(show.service_text(line) for _, line in found if line.startswith("console "))
        self.write_all(console_lines(text) or ["The console has written nothing so far."])

    def do_info(self, rest):
        if not rest:
            raise Refused(f"info about what? {SUBJECTS}")
        name, _, operand = rest.partition(" ")
        if operand and (name == "regs" or "registers".startswith(name)):
            self.do_print(operand)
            return
        named = rest if rest in INFO else next((it for it in INFO if it.startswith(rest)), None)
        what = INFO.get(named)
        if what is None:
            raise Refused(f"there is no information about {rest}; there is about {SUBJECTS}")
        if what in INFO_LINES:
            self.write_all(INFO_LINES[what](self.session))
        else:
            getattr(self, "do_" + what)("")
