"""A session of the debugger: one run, at one step, over the answers of `m36 debug`.

    with Session(program, folder) as session:                     # a folder that boots
    with Session(program, folder, image="least") as session:      # a bare image of the folder
        session.add_break("main$fill", "x2 == 6")
        stop = session.go()
        print(stop.reason, session.step, session.place_name())

Raises machine.Refusal if the program refuses the folder or the image, and if it ends otherwise than
it should. Whatever is shown of the machine is read from the program: trace lines, registers, words.
Only `account` and `last_account` say by the rules of the manual what a step asks and changes.

Moves (forward.py, backward.py) return a stop.Stop, which is also `session.stop`:

    forward(count)  over()  out()  go()  to_ring()  until(place)
    back(count)  back_over()  back_out()  back_to_ring()  back_go()  who(watched)
    go_to(step)     either way, to a number of steps taken

`on_service(step, line)` is called for each line of the linker and the console that a move forward
passes. `interrupt()` may be called from a signal handler or another thread: the move that is going
on then stops within a second, with the reason `interrupt`."""

from ..explain import explain
from ..machine import MOST_INPUT, seg_line, word_in
from ..registers import registers_of
from .backward import Backward
from .calls import listed
from .conditions import Condition, register_value
from .forward import Forward
from .history import History
from .lines import numbers_of, text_of
from .places import NoPlace, Places
from .runs import Runs
from .stop import Breakpoint, Frame, Stop, Watchpoint
from .watched import WATCHED, WatchedRegister, WatchedWord, is_register
from .world import World, loaded_dbr

MOST_WORDS_AT_ONCE = 1_000


class NotThere(Exception):
    """There is no such breakpoint or watchpoint."""


class Session(Forward, Backward):
    """See the text of this module."""

    def __init__(self, program, folder, image=None, on_service=None, most_input=MOST_INPUT):
        self.runs = Runs(program, folder, image, most_input)
        self.on_service = on_service
        self.interrupted = False
        self.step = 0
        self.known_registers = {}
        self.breaks = {}
        self.watches = {}
        self.next_number = 1
        try:
            self.runs.begin()
            self.world = World(program, folder, image)
            self.first_registers = self.read_registers(self.world.dbr)
        except BaseException:
            self.runs.close()
            raise
        self.places = Places(self)
        self.history = History(str(self.first_registers.ring), image is None)
        self.stop = Stop(0, "begin", "")

    def __enter__(self):
        return self

    def __exit__(self, *_):
        self.close()

    def close(self):
        """Ends the processes."""
        self.runs.close()

    def interrupt(self):
        """Stops the move that is going on."""
        self.interrupted = True

    # Where the session is.

    @property
    def ended(self):
        """The program's end line if the run has ended at this position, otherwise None."""
        return self.history.end if self.history.is_end(self.step) else None

    @property
    def registers(self):
        """All registers at this position (registers.Registers)."""
        if self.step not in self.known_registers:
            self.known_registers = {self.step: self.read_registers(self.dbr())}
        return self.known_registers[self.step]

    @property
    def place(self):
        """The place of the next instruction, as `00100|000011`."""
        return text_of(self.registers.segment, self.registers.word)

    def place_name(self):
        """The place of the next instruction, as `main$start+11`."""
        return self.world.names.word(self.registers.segment, self.registers.word)

    def ring_since(self):
        """The number of steps taken when the run came into the ring in which it is."""
        return self.history.rings.since(self.step)

    def is_sure(self):
        """False after ABSA or LDBR in a folder: then going back is not sure to be the same run."""
        after = self.history.unsure_after
        return after is None or self.step < after

    def read_registers(self, dbr):
        regs, where = self.ask("regs", "where")
        return registers_of(regs, where[0], dbr)

    def dbr(self):
        load = self.history.load_at(self.step)
        if load is None:
            return self.world.dbr
        return loaded_dbr(self.runs.at(load[0] - 1), load[1])

    def ask(self, *lines):
        """The answers of the program to these lines at this position. `step`, `go`, `break` and
        `back` are not for this."""
        return self.runs.at(self.step).ask(list(lines))

    # What is there.

    def words(self, segment, word, count=1):
        """Words of a segment from a word on: numbers, or None where there is no such word."""
        found = []
        for first in range(word, word + count, MOST_WORDS_AT_ONCE):
            last = min(first + MOST_WORDS_AT_ONCE, word + count)
            lines = [seg_line(segment, number % (1 << 18)) for number in range(first, last)]
            answer = self.runs.at(self.step).ask_block(lines)
            found += [word_in([line]) for line in answer]
        return found

    def source_line(self, segment=None, word=None):
        """The file and the line of a word of a segment's text, or of the next instruction; None
        twice where there is no source."""
        if segment is None:
            segment, word = self.registers.segment, self.registers.word
        return self.world.sources.line(segment, word)

    def frames(self):
        """The calls in which the run is, the innermost first (stop.Frame)."""
        registers = self.registers
        place, ring, frames = self.place, registers.ring, []
        for call in listed(self.history.call_at(self.step)):
            frames.append(self.frame(place, ring, call.target, call.step))
            place, ring = call.site, call.ring
        start = self.first_registers
        began = text_of(start.segment, start.word)
        return [*frames, self.frame(place, ring, began, None)]

    def frame(self, place, ring, began, call_step):
        segment, word = numbers_of(place)
        names = self.world.names
        file, line = self.source_line(segment, word)
        return Frame(segment, word, ring, names.word(segment, word),
                     names.word(*numbers_of(began)), file, line, call_step)

    def account(self):
        """What the next step asks and what the answers are, by the rules (account.Account). It is
        computed before the step, from the registers and words that the program shows."""
        return explain(self.registers, self.world.memory(self), self.world.names)

    def last_account(self):
        """The account of the step that was taken last, and its trace line; None twice at the
        start."""
        if not self.step:
            return None, None
        step = self.step
        self.step = step - 1
        try:
            return self.account(), self.trace(step, step)[0]
        finally:
            self.step = step

    def trace(self, first, last):
        """The trace lines of the steps from one number to another, with those of the linker and
        the console after them."""
        first, last = max(1, first), min(last, self.history.known)
        if first > last:
            return []
        lines, _ = self.runs.at(first - 1).trace(last - first + 1)
        return lines

    # Breakpoints and watchpoints.

    def add_break(self, text, condition=None, temporary=False):
        """A breakpoint at a place (places.py), with a condition (conditions.py). Raises
        places.NoPlace or conditions.BadCondition."""
        segment, word = self.places.find(text)
        place = text_of(segment, word)
        condition = Condition(condition, self.places) if condition else None
        added = Breakpoint(self.next_number, place, self.world.names.word(segment, word),
                           condition, temporary=temporary)
        self.breaks[added.number] = added
        self.next_number += 1
        return added

    def add_watch(self, text):
        """A watchpoint of a word or a register. Raises places.NoPlace."""
        added = Watchpoint(self.next_number, self.watched(text))
        self.watches[added.number] = added
        self.next_number += 1
        return added

    def watched(self, text):
        """The word or the register that a text names."""
        name = text.removeprefix("$")
        if is_register(name):
            return WatchedRegister(name)
        try:
            segment, word = self.places.find(text)
        except NoPlace:
            if register_value(name):
                raise NoPlace(f"{name} can't be watched: words can, and {WATCHED}") from None
            raise
        return WatchedWord(segment, word, self.world.names.word(segment, word))

    def drop(self, number):
        """Deletes a breakpoint or a watchpoint."""
        self.stopper(number)
        self.breaks.pop(number, None)
        self.watches.pop(number, None)

    def stopper(self, number):
        """The breakpoint or the watchpoint of a number."""
        found = self.breaks.get(number) or self.watches.get(number)
        if found is None:
            raise NotThere(f"there is no breakpoint or watchpoint {number}")
        return found

    def active_breaks(self):
        """The breakpoints that are enabled, by their places."""
        found = {}
        for added in self.breaks.values():
            if added.enabled:
                found.setdefault(added.place, []).append(added)
        return found

    def active_watches(self):
        return [watch for watch in self.watches.values() if watch.enabled]

    def watch_value(self, what):
        return what.value(self.ask(what.line)[0])

    def break_stop(self, position, breaks):
        """The Stop at a position where there are breakpoints, if the condition of one holds. It is
        a hit of each whose condition holds."""
        view = self.view(position)
        hit = [added for added in breaks if added.condition is None or added.condition.holds(view)]
        if not hit:
            return None
        for added in hit:
            added.hits += 1
            if added.temporary:
                self.breaks.pop(added.number, None)
        numbers = " and ".join(str(added.number) for added in hit)
        text = f"Breakpoint{'s' if len(hit) > 1 else ''} {numbers}: {hit[0].text}."
        return Stop(position, "break", text, hit[0].number)

    def stops_at(self, position, breaks):
        """One of these breakpoints stops at a position."""
        view = self.view(position)
        return any(added.condition is None or added.condition.holds(view) for added in breaks)

    def view(self, position=None):
        """What a condition sees of a position, or of this one."""
        return View(self, self.step if position is None else position)

    # Moving.

    def go_to(self, step):
        """Goes to a number of steps taken, either way; to the end of the run if that is before."""
        if step < self.step:
            return self.go_back_to(step)
        if step > self.history.known:
            return self.go_forward(step - self.step, breaks=False, watches=[])
        self.report_services(self.step + 1, step)
        self.step = step
        stop = Stop(step, "step", "")
        return self.stopped(self.end_stop() if self.ended else stop)

    def stopped(self, stop):
        self.stop = stop
        self.runs.prepare(self.step)
        return stop

    def end_stop(self, stop=None):
        """The Stop of the end of the run; `stop` is what else was met there."""
        text = f"The run has ended: {self.ended}."
        if stop and stop.reason == "watch":
            text = f"{stop.text} {text}"
        return Stop(self.step, "end", text, end=self.ended)

    def report_services(self, first, last):
        if self.on_service:
            for step, line in self.history.services_between(first, last):
                self.on_service(step, line)


class View:
    """What a condition sees of a position: registers and words."""

    def __init__(self, session, position):
        self.session = session
        self.step = position
        self.found = None

    def ask(self, *lines):
        return self.session.runs.at(self.step).ask(list(lines))

    @property
    def registers(self):
        if self.found is None:
            regs, where = self.ask("regs", "where")
            self.found = registers_of(regs, where[0], self.session.world.dbr)
        return self.found

    def word_at(self, segment, word):
        """A word of a segment, or None."""
        return word_in(self.ask(seg_line(segment, word))[0])
