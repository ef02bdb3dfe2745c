"""The requests that begin and end a session, and what the others need of it.

The groups of requests are in moves.py, breakpoints.py, variables.py and memory.py: each has a
`handlers` of commands and methods."""

import pathlib

from ..debugging import Session
from ..debugging.opening import folder_and_image
from ..machine import Refusal
from ..recorder import console_written
from ..refusals import REFUSAL
from ..shown import plain
from ..words import code_entry
from ..protocol.members import member, optional
from .breakpoints import Breakpoints
from .channel import Channel, Ended, Refused
from .memory import Memory
from .moves import Moves
from .sources import SourceTexts
from .variables import Variables

THREAD = 1
GONE = "m36 has ended"
CAPABILITIES = (
    "supportsConfigurationDoneRequest", "supportsFunctionBreakpoints",
    "supportsConditionalBreakpoints", "supportsStepBack", "supportsSteppingGranularity",
    "supportsDisassembleRequest", "supportsInstructionBreakpoints", "supportsReadMemoryRequest",
    "supportsDataBreakpoints", "supportsRestartRequest", "supportsTerminateRequest",
    "supportsExceptionInfoRequest", "supportsEvaluateForHovers", "supportsCancelRequest",
)
FILTERS = [{"filter": "ring", "label": "A change of ring", "default": False}]


def refusal_text(refusal):
    """What the program said when it refused, with what its code means and what to do."""
    lines = refusal.text.splitlines()
    text = "; ".join(plain(line) for line in lines) or f"m36 ended with status {refusal.status}"
    match = next(filter(None, map(REFUSAL.fullmatch, lines)), None)
    entry = code_entry(match[2]) if match else None
    return f"{text}: {entry.sentence}; {entry.advice}" if entry else text


class Adapter(Channel):
    """One editor, and the session that it debugs."""

    def __init__(self, program, why_none, inbox, output):
        super().__init__(inbox, output)
        self.program = program
        self.why_none = why_none
        self.opened = None
        self.path = None
        self.is_configured = False
        self.stops_on_entry = True
        self.first_line = self.first_column = 1
        self.sources = SourceTexts(self)
        self.breakpoints = Breakpoints(self)
        self.moves = Moves(self)
        self.variables = Variables(self)
        self.memory = Memory(self)
        self.handlers = {
            "initialize": self.initialize, "launch": self.launch, "attach": self.attach,
            "configurationDone": self.configuration_done, "threads": self.threads,
            "restart": self.restart, "disconnect": self.disconnect, "terminate": self.terminate,
            "cancel": self.cancel,
        }
        for group in (self.sources, self.breakpoints, self.moves, self.variables, self.memory):
            self.handlers.update(group.handlers())

    def close(self):
        """Ends the session with its processes."""
        if self.opened is not None:
            self.opened.close()
            self.opened = None

    @property
    def session(self):
        """The session; a request that needs one fails before it begins."""
        if self.opened is None:
            raise Refused("there is no session: expected launch first")
        return self.opened

    def body_of(self, number, command, message):
        """As that of a channel. If the program ends or refuses, so does the session."""
        try:
            return super().body_of(number, command, message)
        except Refusal as refusal:
            self.after(self.lost)
            raise Refused(refusal_text(refusal)) from None
        except BrokenPipeError:
            self.after(self.lost)
            raise Refused(GONE) from None

    def perform(self, action):
        """As that of a channel. If the program ends meanwhile, so does the session."""
        super().perform(lambda: self.perform_here(action))

    def perform_here(self, action):
        """Does what comes after a response."""
        try:
            action()
        except (Refusal, BrokenPipeError) as why:
            text = refusal_text(why) if isinstance(why, Refusal) else GONE
            self.say(text, "important")
            self.lost()

    def lost(self):
        """The session is over, and the editor is informed."""
        self.close()
        self.event("terminated")

    # The beginning.

    def initialize(self, arguments):
        self.first_line = int(optional(arguments, "linesStartAt1", bool, True))
        self.first_column = int(optional(arguments, "columnsStartAt1", bool, True))
        return {**dict.fromkeys(CAPABILITIES, True), "exceptionBreakpointFilters": FILTERS}

    def launch(self, arguments):
        if self.opened is not None:
            raise Refused("a session has begun already")
        if not self.program:
            raise Refused(self.why_none)
        path = self.path_of(arguments)
        self.stops_on_entry = optional(arguments, "stopOnEntry", bool, True)
        folder, image = folder_and_image(path)
        self.opened = Session(self.program, folder, image, on_service=self.report_service)
        self.path = path
        self.after(self.begun)

    @staticmethod
    def path_of(arguments):
        """The folder or the image that is debugged."""
        path = pathlib.Path(member(arguments, "program", str))
        try:
            if path.exists():
                folder, image = folder_and_image(path)
                return (folder / image if image else folder).resolve()
        except (OSError, ValueError):
            pass
        raise Refused(f"{plain(str(path))}: there is no such folder or file")

    def attach(self, _arguments):
        raise Refused("there is nothing to attach to: launch a folder or an image")

    def begun(self):
        """The session has begun: what a person should know of it, and the time for breakpoints."""
        for problem in self.session.world.problems():
            self.say(f"What runs is not this source: {problem}", "important")
        self.event("initialized")

    def configuration_done(self, _arguments):
        self.session.registers  # (there is a session)
        if not self.is_configured:
            self.is_configured = True
            self.after(self.start)

    def start(self):
        """The first stop, or the run."""
        if self.stops_on_entry:
            self.moves.report(self.session.stop, "entry")
        else:
            self.moves.run(self.moves.forward)

    def threads(self, _arguments):
        name = self.path.name if self.path else "m36"
        return {"threads": [{"id": THREAD, "name": name}]}

    # The output.

    def say(self, text, category="console"):
        """Shows a line in the editor's console."""
        self.event("output", category=category, output=f"{text}\n")

    def report_service(self, _step, line):
        """Shows what the console of the machine writes, and what its linker does."""
        written = console_written([line])
        if written is None:
            self.say(line)
        else:
            self.event("output", category="stdout", output=written)

    # The end.

    def restart(self, _arguments):
        self.session.go_to(0)
        self.variables.forget()
        self.after(self.start)

    def terminate(self, _arguments):
        self.after(self.lost)

    def disconnect(self, _arguments):
        self.after(self.end)

    def end(self):
        """Ends the adapter."""
        self.close()
        raise Ended(0)

    def cancel(self, _arguments):
        """What is cancelled is found when its turn comes; there is no progress to be cancelled."""
