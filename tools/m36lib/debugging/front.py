"""The commands of the debugger, carried out: each writes lines of text.

    front = Front(session, write)
    front.do("break main$fill if x2 == 6")      # False once the user has left

`write(line)` takes a line of text without its line feed. What can't be done is written as a line
that begins with `? `, and `front.refused` counts these."""

from . import command_table, conditions, places, show
from .command_words import (
    Refused, console_lines, count_of, no_more, numbers_in, split_condition, split_name,
)
from .conditions import BadCondition, Condition
from .lines import numbers_of, text_of
from .looking import Looking
from .places import NoPlace
from .session import NotThere


class Front(Looking):
    """See the text of this module."""

    def __init__(self, session, write):
        self.session = session
        self.write = write
        self.refused = 0
        self.listed_to = None
        self.last_examined = None
        self.leaves = False
        self.is_on = False
        self.was_sure = True
        self.frame_number = 0
        self.displays = {}
        self.next_display = 1

    def do(self, line):
        """Carries out a line. False once the user has left."""
        line = line.strip()
        if not line or line.startswith("#"):
            return True
        try:
            command, rest = split_name(line)
            getattr(self, "do_" + command.method)(rest)
        except (Refused, NoPlace, BadCondition, NotThere, command_table.Unknown) as why:
            self.refused += 1
            self.write(f"? {show.plain(str(why))}")
        return not self.leaves

    def write_all(self, lines):
        for line in lines:
            self.write(line)

    # Moving.

    def stopped(self, stop):
        """Shows where a move has stopped."""
        self.listed_to = None
        self.frame_number = 0
        if not self.session.is_sure() and self.was_sure:
            self.was_sure = False
            self.write("The run has executed ABSA or LDBR: from here on it is not sure to be the "
                       "same each time, so neither is going back.")
        self.show_stop()
        self.show_displays()
        return stop

    def show_stop(self):
        self.write_all(show.stop_lines(self.session))

    def several(self, rest, move):
        """Makes a move so often, until something else stops it."""
        count = count_of(rest, 1)
        for _ in range(count):
            stop = move()
            if stop.reason != "step":
                break
        self.stopped(stop)

    def do_step(self, rest):
        self.stopped(self.session.forward(count_of(rest, 1)))

    def do_next(self, rest):
        self.several(rest, self.session.over)

    def do_finish(self, rest):
        no_more(rest)
        self.stopped(self.in_call(self.session.out()))

    def in_call(self, stop):
        if stop is None:
            raise Refused("the run is in no call")
        return stop

    def do_go(self, rest):
        self.stopped(self.session.go(count_of(rest, 0)) if rest else self.session.go())

    def do_ring(self, rest):
        no_more(rest)
        self.stopped(self.session.to_ring())

    def do_until(self, rest):
        if not rest:
            raise Refused("until which place?")
        self.stopped(self.session.until(text_of(*self.session.places.find(rest))))

    def do_run(self, rest):
        no_more(rest)
        self.session.go_to(0)
        self.stopped(self.session.go())

    def do_start(self, rest):
        no_more(rest)
        self.stopped(self.session.go_to(0))

    def do_goto(self, rest):
        if not rest:
            raise Refused("which step? as in `goto 12` or `goto end`")
        if rest == "end":
            self.stopped(self.session.to_end())
        else:
            self.stopped(self.session.go_to(count_of(rest, None, least=0)))

    def do_back(self, rest):
        self.stopped(self.session.back(count_of(rest, 1)))

    def do_back_over(self, rest):
        self.several(rest, self.session.back_over)

    def do_back_out(self, rest):
        no_more(rest)
        self.stopped(self.in_call(self.session.back_out()))

    def do_back_go(self, rest):
        no_more(rest)
        self.stopped(self.session.back_go())

    def do_back_ring(self, rest):
        no_more(rest)
        self.stopped(self.session.back_to_ring())

    def do_who(self, rest):
        if not rest:
            raise Refused("which word or register?")
        watched = self.session.watched(rest)
        stop = self.session.who(watched)
        if stop is None:
            raise Refused(f"{watched.text} has not changed since the start of the run")
        self.stopped(stop)

    # Where to stop.

    def do_add_break(self, rest, temporary=False):
        place, condition = split_condition(rest)
        added = self.session.add_break(place or ".", condition, temporary)
        file, line = self.session.source_line(*numbers_of(added.place))
        source = f", {file}:{line}" if line else ""
        self.write(f"Breakpoint {added.number} at {added.text}{source}")

    def do_add_temporary(self, rest):
        self.do_add_break(rest, temporary=True)

    def do_add_watch(self, rest):
        if not rest:
            raise Refused("watch which word or register?")
        if "if" in rest.split():
            raise Refused("a watchpoint has no condition; a breakpoint has one, as in "
                          "`break PLACE if CONDITION`")
        added = self.session.add_watch(rest)
        value = self.session.watch_value(added.what)
        self.write(f"Watchpoint {added.number}: {added.what.text} is {value}")

    def do_condition(self, rest):
        if not rest:
            raise Refused("of which breakpoint? as in `condition 1 a == 5`")
        number, _, condition = rest.partition(" ")
        added = self.session.breaks.get(count_of(number, None))
        if added is None:
            raise Refused(f"there is no breakpoint {number}")
        condition = condition.strip()
        added.condition = Condition(condition, self.session.places) if condition else None
        when = f"if {condition}" if condition else "always"
        disabled = "" if added.enabled else ", once it is enabled"
        self.write(f"Breakpoint {number} stops {when}{disabled}")

    def chosen(self, rest):
        """The numbers of breakpoints and watchpoints in a text, all if there are none. If there is
        nothing of one of the numbers, this is refused."""
        text = rest.removeprefix("breakpoints").strip()
        if text in ("", "all"):
            return [*self.session.breaks, *self.session.watches]
        numbers = sorted(set(numbers_in(text)))
        for number in numbers:
            self.session.stopper(number)
        return numbers

    def do_delete(self, rest):
        for number in self.chosen(rest):
            self.session.drop(number)

    def do_disable(self, rest):
        self.switch(rest, False)

    def do_enable(self, rest):
        self.switch(rest, True)

    def switch(self, rest, is_on):
        for number in self.chosen(rest):
            self.session.stopper(number).enabled = is_on

    # Other.

    def do_help(self, rest):
        topics = {"places": places, "expressions": conditions, "conditions": conditions}
        if not rest:
            self.show_help(command_table.overview())
        elif rest in topics:
            self.show_help(topics[rest].__doc__.rstrip().splitlines())
        else:
            self.show_help(command_table.described(command_table.find(rest)))

    def show_help(self, lines):
        self.write_all(lines)

    def do_screen(self, rest):
        if rest not in ("on", "off"):
            raise Refused("screen on, or screen off")
        self.is_on = rest == "on"

    def do_quit(self, rest):
        no_more(rest)
        self.leaves = True

    def serve(self, _, line):
        """Shows a line of the linker, or what the console writes, when the run reaches it."""
        written = show.console_written([line])
        if written is None:
            self.write(line)
        else:
            self.write_all(f"console: {text}" for text in console_lines(written))
