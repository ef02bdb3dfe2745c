"""The requests that move the run, and how its stops are reported."""

import threading

from ..protocol.members import member, optional
from ..words import entries_of
from .channel import Refused

SECONDS = 0.05
STOPPING = ("pause", "disconnect", "terminate", "restart")
# By the reason of a stop (m36lib.debugging.stop).
REASONS = {
    "begin": "entry", "step": "step", "break": "breakpoint", "watch": "data breakpoint",
    "ring": "step", "return": "step", "end": "exception", "limit": "pause", "interrupt": "pause",
}
# Moves back by the commands of the console, for editors that have none of their own.
CONSOLE_MOVES = {
    "back": "back", "reverse-step": "back", "rs": "back",
    "reverse-next": "back_over", "rn": "back_over",
    "reverse-continue": "back_go", "rc": "back_go",
    "reverse-ring": "back_to_ring", "rr": "back_to_ring",
}
FINE_END = "end dis "
UNSURE = "The run has executed ABSA or LDBR, so going back is not sure to lead to the same states."


class Watcher:
    """While the run moves, looks for requests that stop it, and interrupts the session."""

    def __init__(self, session, must_stop):
        self.session = session
        self.must_stop = must_stop
        self.is_over = threading.Event()
        self.thread = threading.Thread(target=self.look, daemon=True)

    def __enter__(self):
        self.thread.start()

    def __exit__(self, *_):
        self.is_over.set()
        self.thread.join()

    def look(self):
        while not self.is_over.wait(SECONDS):
            if self.must_stop():
                self.session.interrupt()


class Moves:
    """Moves of the session."""

    def __init__(self, adapter):
        self.adapter = adapter
        self.stops_at_rings = False
        self.is_moving = False
        self.was_sure = True

    def handlers(self):
        return {
            "continue": self.continued, "next": self.next, "stepIn": self.step_in,
            "stepOut": self.step_out, "stepBack": self.step_back,
            "reverseContinue": self.reverse_continued, "pause": self.pause,
            "exceptionInfo": self.exception_info, "setExceptionBreakpoints": self.set_filters,
        }

    @property
    def session(self):
        return self.adapter.session

    # Requests.

    def continued(self, arguments):
        self.begin(arguments, self.forward)
        return {"allThreadsContinued": True}

    def reverse_continued(self, arguments):
        self.begin(arguments, self.session.back_go)

    def next(self, arguments):
        self.begin(arguments, self.session.over)

    def step_in(self, arguments):
        self.begin(arguments, self.session.forward)

    def step_out(self, arguments):
        if len(self.session.frames()) < 2:
            raise Refused("the run is in no call that could return")
        self.begin(arguments, self.session.out)

    def step_back(self, arguments):
        granularity = optional(arguments, "granularity", str, "line")
        move = self.session.back if granularity == "instruction" else self.session.back_over
        self.begin(arguments, move)

    def pause(self, arguments):
        """Between moves there is nothing to stop: the stop is reported again."""
        member(arguments, "threadId", int)
        self.adapter.after(lambda: self.report(self.session.stop, "pause"))

    def set_filters(self, arguments):
        self.stops_at_rings = "ring" in member(arguments, "filters", list)

    def exception_info(self, _arguments):
        """What the end of the run means."""
        end = self.session.ended
        if not end:
            raise Refused("the run has not ended")
        entries = entries_of(end)
        sentences = [f"{entry.sentence}; {entry.advice}" for entry in entries]
        return {
            "exceptionId": end,
            "description": " ".join(sentences) or end,
            "breakMode": "always",
        }

    # Moving.

    def forward(self):
        """Goes on to a breakpoint or the end, or to a change of ring where these are asked for."""
        return self.session.to_ring() if self.stops_at_rings else self.session.go()

    def begin(self, arguments, move):
        """Makes a move once the request is answered."""
        member(arguments, "threadId", int)
        self.check_begin()
        self.adapter.after(lambda: self.run(move))

    def check_begin(self):
        """Refuses a move that can't begin now."""
        if not self.adapter.is_configured:
            raise Refused("expected configurationDone first")
        if self.is_moving:
            raise Refused("the run goes on: pause it first")

    def begin_from_console(self, name):
        """Makes the move back of a console command. The editor has not asked for a move, so it is
        informed that the run goes on."""
        move = getattr(self.session, CONSOLE_MOVES[name])
        self.check_begin()
        self.adapter.after(lambda: self.event_and_run(move))

    def event_and_run(self, move):
        self.adapter.event("continued", threadId=1, allThreadsContinued=True)
        self.run(move)

    def run(self, move):
        """Makes a move, and reports where it stops."""
        if self.session.ended and move == self.forward:
            self.finished()
            return
        self.is_moving = True
        try:
            stop = self.stop_of(move)
        finally:
            self.is_moving = False
        if stop:
            self.report(stop)

    def stop_of(self, move):
        """The stop of a move; None where the session has ended. Other requests that come meanwhile
        are answered on the way, if the move can be taken up again after them."""
        can_resume = move in (self.forward, self.session.back_go)
        while True:
            self.adapter.variables.forget()
            with Watcher(self.session, self.adapter.has_waiting if can_resume else self.is_to_stop):
                stop = move()
            if not can_resume or stop.reason != "interrupt" or self.is_to_stop():
                return stop
            self.adapter.take_waiting()
            if self.adapter.opened is None:
                return None

    def is_to_stop(self):
        """Whether a request waits that stops the run."""
        return self.adapter.is_waited_for(STOPPING)

    # Reports.

    def report(self, stop, reason=None):
        """Reports a stop."""
        if self.was_sure and not self.session.is_sure():
            self.was_sure = False
            self.adapter.say(UNSURE, "important")
        reason = reason or REASONS[stop.reason]
        if stop.reason == "end" and stop.end.startswith(FINE_END):
            reason = "pause"
        body = {"reason": reason, "threadId": 1, "allThreadsStopped": True}
        text = stop.text
        if stop.reason == "break":
            text = f"A breakpoint at {self.session.place_name()}."
        if text:
            body["description"] = body["text"] = text
        hit = self.adapter.breakpoints.hit(stop)
        if hit:
            body["reason"], body["hitBreakpointIds"] = hit
        self.adapter.event("stopped", **body)

    def finished(self):
        """The run had ended already, and goes on: the session is over."""
        status = 0 if self.session.ended.startswith(FINE_END) else 6
        self.adapter.event("exited", exitCode=status)
        self.adapter.event("terminated")
