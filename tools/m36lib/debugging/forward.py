"""Goes forward: in pieces of steps, each of which is looked at for a reason to stop."""

from .calls import depth_of
from .lines import Piece, piece_size
from .runs import watched_at_once
from .stop import Stop
from .watched import WatchedSteps

LARGEST_PIECE = 1 << 15
MOST_OF_GO = 10_000_000
REASONS = {
    "step": "",
    "return": "The call has returned.",
    "ring": "The ring has changed.",
}


class Forward:
    """The moves of a session that go forward. Each returns the Stop that it reaches."""

    def forward(self, count=1):
        """Takes `count` steps. Breakpoints and watchpoints stop it, after one step at least."""
        return self.go_forward(count)

    def go(self, most=MOST_OF_GO):
        """Goes on to a breakpoint, a watchpoint or the end."""
        return self.go_forward(most, limit="limit")

    def to_end(self):
        """Goes on to the end of the run, past breakpoints and watchpoints."""
        return self.go_forward(MOST_OF_GO, limit="limit", breaks=False, watches=[])

    def over(self):
        """A step, but a call is gone through up to its return. A link that is snapped on the way
        is no step of its own."""
        depth = self.history.depth_at(self.step)
        stop = self.go_forward(1)
        while stop.reason == "step" and self.has_snapped():
            stop = self.go_forward(1)
        if stop.reason == "step" and self.history.depth_at(self.step) > depth:
            return self.to_depth(depth, "step")
        return stop

    def has_snapped(self):
        """The last step lacked a link, which is snapped now: it is to be taken again."""
        return any(line.startswith("link ")
                   for _, line in self.history.services_between(self.step, self.step))

    def out(self):
        """Goes on until the innermost call has returned; None if the run is in no call."""
        depth = self.history.depth_at(self.step)
        return self.to_depth(depth - 1, "return") if depth else None

    def to_depth(self, depth, reason):
        """Goes on until the run is in at most this number of calls."""
        return self.go_forward(
            MOST_OF_GO, lambda _, call: depth_of(call) <= depth, reason, limit="limit"
        )

    def to_ring(self):
        """Goes on until the ring changes."""
        return self.go_forward(
            MOST_OF_GO, lambda taken, _: taken.next_ring != taken.ring, "ring", limit="limit"
        )

    def until(self, place):
        """Goes on until the next instruction is at a place (`00100|000011`)."""
        return self.go_forward(
            MOST_OF_GO, lambda taken, _: taken.next_place == place, places=(place,), limit="limit"
        )

    def go_forward(self, most, is_there=None, reason="step", limit="step", breaks=True,
                   watches=None, places=()):
        """Goes forward until `is_there(taken, call)` holds after a step, something is met, or so
        many steps are taken. It is asked of steps that call, return or change the ring, and of
        those after which the run is at one of `places`."""
        if self.ended:
            return self.stopped(self.end_stop())
        start = position = self.step
        look = Look(self, is_there, reason, breaks, watches, places)
        self.interrupted = False
        size, stop = 1, None
        while stop is None and position < start + most and not self.history.is_end(position):
            if self.interrupted:
                stop = Stop(position, "interrupt", "Interrupted.")
                break
            count = piece_size(position, min(size, start + most - position))
            stop, reached = self.piece(position, count, look)
            self.report_services(position + 1, reached)
            position, size = reached, min(size * 8, LARGEST_PIECE)
        self.step = position
        if stop is None:
            stop = Stop(position, limit, limit_text(limit, position - start))
        return self.stopped(self.end_stop(stop) if self.ended else stop)

    def piece(self, position, count, look):
        """Takes some steps from a position. The Stop at the first reason to stop, or None; and the
        position that is reached."""
        piece, watched, run = self.traced(position, count, look.watches)
        if run.end:
            self.history.end = run.end
        self.history.add(piece)
        stop = look.stop(piece, watched)
        return stop, stop.step if stop else run.step

    def traced(self, position, count, watches):
        """Up to this number of steps from a position, with what is watched; and the process."""
        run = self.runs.at(position)
        watched = None
        if watches:
            lines = [watch.what.line for watch in watches]
            answer = run.watch(min(count, watched_at_once(lines)), lines)
            watched = WatchedSteps(answer, [watch.what for watch in watches])
            lines, where = watched.lines, run.ask(["where"])[0][0]
        else:
            lines, where = run.trace(count)
        return Piece(position + 1, lines, where), watched, run


class Look:
    """What a session looks for after each step."""

    def __init__(self, session, is_there, reason, breaks, watches, places):
        self.session = session
        self.history = session.history
        self.is_there = is_there
        self.reason = reason
        self.breaks = session.active_breaks() if breaks else {}
        self.places = {*self.breaks, *places}
        self.watches = session.active_watches() if watches is None else watches
        self.values = tuple(session.watch_value(watch.what) for watch in self.watches)

    def stop(self, piece, watched):
        """The first Stop in a piece, or None."""
        indexes = set(piece.before_places(self.places))
        if self.is_there:
            indexes.update(self.history.changed_in(piece))
        changed = watched.changes(self.values) if watched else []
        for index in sorted(indexes.union(changed[:1])):
            if self.session.interrupted:
                return Stop(piece.first + index - 1, "interrupt", "Interrupted.")
            stop = self.stop_at(piece.taken(index), changed[:1] == [index], watched, index)
            if stop:
                return stop
        return None

    def stop_at(self, taken, has_changed, watched, index):
        """The Stop after a step, or None."""
        if has_changed:
            return self.watch_stop(taken, watched.values[index])
        if taken.next_place in self.breaks and not taken.has_snapped():
            stop = self.session.break_stop(taken.number, self.breaks[taken.next_place])
            if stop:
                return stop
        if self.is_there and self.is_there(taken, self.history.call_at(taken.number)):
            return Stop(taken.number, self.reason, REASONS[self.reason])
        return None

    def watch_stop(self, taken, values):
        """The Stop at the first of the things watched that a step has changed."""
        for watch, before, after in zip(self.watches, self.values, values):
            if before != after:
                watch.hits += 1
                what = watch.what.text
                text = f"Watchpoint {watch.number}: {what} was {before} and is {after}."
                return Stop(taken.number, "watch", text, watch.number, what, before, after)
        return None


def limit_text(limit, count):
    return f"Stopped after {count} steps; `continue` goes on." if limit == "limit" else ""
