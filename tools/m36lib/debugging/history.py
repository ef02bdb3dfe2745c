"""What is known of a run up to the last step that was traced: calls, rings, what the linker and the
console did, and its end. Steps are numbered from 1; a position is a number of steps taken."""

from bisect import bisect_right

from .calls import follow, listed
from .lines import ABSA, LDBR, after_place


class Changes:
    """A value that changes at some positions."""

    def __init__(self, first):
        self.positions = [0]
        self.values = [first]

    def last(self):
        return self.values[-1]

    def put(self, position, value):
        self.positions.append(position)
        self.values.append(value)

    def index(self, position):
        return bisect_right(self.positions, position) - 1

    def at(self, position):
        return self.values[self.index(position)]

    def since(self, position):
        """The position from which on the value has been what it is at a position."""
        return self.positions[self.index(position)]


class History:
    """`known` is the last position that was traced; `end` the end line once it is known. `over` is
    what the run is of: the run of a folder is not sure to be the same again after ABSA or LDBR."""

    def __init__(self, ring, is_folder):
        self.known = 0
        self.end = None
        self.is_folder = is_folder
        self.calls = Changes(None)
        self.rings = Changes(ring)
        self.services = []
        self.service_steps = []
        self.loads = []
        self.unsure_after = None

    def add(self, piece):
        """Takes note of the steps of a piece that are the next ones that are not known."""
        after = self.known + 1 - piece.first
        if not 0 <= after < len(piece):
            return
        for index in self.changed_in(piece):
            if index >= after:
                self.add_step(piece.taken(index))
        self.known = piece.first + len(piece) - 1

    def changed_in(self, piece):
        """The indexes of the steps of a piece that may call, return or change the ring, and of
        those after which the linker or the console answered."""
        codes = piece.with_codes()
        returns = {after_place(piece.taken(index).place) for index in codes}
        returns.update(call.back for call in listed(self.calls.at(piece.first - 1)))
        return sorted({*codes, *piece.services, *piece.with_other_ring(),
                       *piece.before_places(returns)})

    def add_step(self, taken):
        call = follow(self.calls.last(), taken)
        if call is not self.calls.last():
            self.calls.put(taken.number, call)
        if taken.next_ring != self.rings.last():
            self.rings.put(taken.number, taken.next_ring)
        for line in taken.services:
            self.services.append(line)
            self.service_steps.append(taken.number)
        if taken.code in (ABSA, LDBR) and taken.outcome == "next":
            self.add_unsure(taken)

    def add_unsure(self, taken):
        if taken.word[9] >= "4":
            return
        if taken.code == LDBR:
            self.loads.append((taken.number, taken.final))
        if self.is_folder and self.unsure_after is None:
            self.unsure_after = taken.number

    def call_at(self, position):
        """The innermost call at a position, or None."""
        return self.calls.at(position)

    def depth_at(self, position):
        call = self.calls.at(position)
        return call.depth if call else 0

    def services_between(self, first, last):
        """The lines of linker and console after the steps from one to another, with their steps."""
        start = bisect_right(self.service_steps, first - 1)
        stop = bisect_right(self.service_steps, last)
        return list(zip(self.service_steps[start:stop], self.services[start:stop]))

    def load_at(self, position):
        """The step and the final address of the last LDBR up to a position, or None."""
        found = [load for load in self.loads if load[0] <= position]
        return found[-1] if found else None

    def is_end(self, position):
        """The run has ended at this position."""
        return self.end is not None and position >= int(self.end.rpartition(" ")[2])
