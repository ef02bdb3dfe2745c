"""Goes back: to positions that the history of the run names, or in pieces that are traced again."""

from .lines import piece_size
from .runs import GO_STEPS
from .stop import Stop, Watchpoint

FIRST_PIECE = 256
LARGEST_PIECE = 1 << 15
AT_START = "This is the start of the run."


class Backward:
    """The moves of a session that go back. Each returns the Stop that it reaches."""

    def back(self, count=1):
        """Goes back this number of steps, or to the start if there are fewer."""
        return self.go_back_to(max(0, self.step - count))

    def back_over(self):
        """Goes back a step, but back through a call that has returned to before it."""
        if not self.step:
            return self.go_back_to(0)
        depth = self.history.depth_at(self.step)
        call = self.history.call_at(self.step - 1)
        while call and call.depth > depth + 1:
            call = call.outer
        if call and call.depth > depth:
            return self.go_back_to(call.step - 1)
        return self.go_back_to(self.step - 1)

    def back_out(self):
        """Goes back to before the call that the run is in; None if it is in no call."""
        call = self.history.call_at(self.step)
        return self.go_back_to(call.step - 1, "return", "Before the call.") if call else None

    def back_to_ring(self):
        """Goes back to before the step that changed the ring last."""
        since = self.history.rings.since(self.step)
        if not since:
            return self.go_back_to(0)
        return self.go_back_to(since - 1, "ring", "The next step changes the ring.")

    def back_go(self):
        """Goes back to a breakpoint, to before a change of what is watched, or to the start."""
        return self.search_back(self.active_watches(), self.active_breaks())

    def who(self, what):
        """Goes back to before the last step that changed a watched.WatchedWord or WatchedRegister;
        None, and nothing moves, if it has not changed since the start."""
        step = self.step
        stop = self.search_back([Watchpoint(None, what)], {})
        if stop.reason in ("watch", "interrupt"):
            return stop
        self.step = step
        return None

    def go_back_to(self, step, reason="step", text=""):
        self.step = step
        if not step:
            reason, text = "begin", AT_START
        return self.stopped(Stop(step, reason, text))

    def search_back(self, watches, places):
        """Goes back to the last position before here that has a reason to stop."""
        last, size, stop = self.step, FIRST_PIECE, None
        self.interrupted = False
        while stop is None and last > 0 and (watches or places):
            first = max(0, last - size)
            if size > LARGEST_PIECE:
                first = (last - 1) // GO_STEPS * GO_STEPS
            stop = self.last_reason(first, last, watches, places)
            last, size = first, size * 8
        if stop is None:
            return self.go_back_to(0)
        self.step = stop.step
        return self.stopped(stop)

    def last_reason(self, first, last, watches, places):
        """The Stop at the last position from `first` on and before `last` that has a reason."""
        found = self.last_to_stop(list(self.may_stop(first, last, watches, places)), places)
        if self.interrupted:
            return Stop(last, "interrupt", "Interrupted.")
        return self.reason_before(*found, watches, places) if found else None

    def may_stop(self, first, last, watches, places):
        """The steps between two positions that change what is watched, or before which there is a
        breakpoint; each with the values before it and after it."""
        at, values = first, self.values_at(first, watches)
        while at < last and not self.interrupted:
            count = piece_size(at, min(last - at, LARGEST_PIECE))
            piece, watched, run = self.traced(at, count, watches)
            changed = watched.changes(values) if watched else []
            for index in sorted({*piece.at_places(places), *changed}):
                before = watched.values[index - 1] if watched and index else values
                after = watched.values[index] if watched else values
                if before != after or not self.is_repeated(at + index):
                    yield piece.taken(index), before, after
            values = watched.values[-1] if watched and watched.values else values
            at = run.step

    def last_to_stop(self, found, places):
        """The last of these steps before which the run stops, or None. Conditions are tested
        forward, since a process only goes forward: to test an earlier step is a new run."""
        certain = len(found) - 1
        while certain >= 0 and not is_certain(*found[certain], places):
            certain -= 1
        last = found[certain] if certain >= 0 else None
        for each in found[certain + 1 :]:
            if self.interrupted:
                return None
            if self.stops_at(each[0].number - 1, places[each[0].place]):
                last = each
        return last

    def reason_before(self, taken, before, after, watches, places):
        """The Stop before a step that has a reason."""
        position = taken.number - 1
        for watch, old, new in zip(watches, before, after):
            if old != new:
                return changes_stop(position, watch, old, new)
        return self.break_stop(position, places[taken.place])

    def is_repeated(self, position):
        """The step before this position was the same one, and lacked a link that was snapped."""
        return any(line.startswith("link ")
                   for _, line in self.history.services_between(position, position))

    def values_at(self, step, watches):
        run = self.runs.at(step)
        return tuple(watch.what.value(run.ask([watch.what.line])[0]) for watch in watches)


def is_certain(taken, before, after, places):
    """The run stops before this step whatever the conditions of breakpoints are."""
    return before != after or any(added.condition is None for added in places[taken.place])


def changes_stop(position, watch, before, after):
    watch.hits += 1
    text = f"{watch.what.text} was {before}, and the next step changes it to {after}."
    return Stop(position, "watch", text, watch.number, watch.what.text, before, after)
