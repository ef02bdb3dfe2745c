"""The debugger on a terminal: a prompt, history and completion by readline, and a screen."""

import os
import pathlib
import shutil
import sys

from . import command_table, completion
from .fitting import wrapped_row
from .front import Front
from .screen import Paint, Screen, colours_wanted

try:
    import readline
except ImportError:
    readline = None

PROMPT = "(m36) "
MORE = "-- Enter shows more, q Enter ends --"
MOST_HISTORY = 1_000
FOLLOWED = ("examine", "list")


def history_file():
    """Where the lines of earlier sessions are kept."""
    state = os.environ.get("XDG_STATE_HOME") or os.path.expanduser("~/.local/state")
    return pathlib.Path(state) / "m36/debug_history"


class TerminalFront(Front):
    """A front whose stops are screens."""

    def __init__(self, session, write):
        super().__init__(session, write)
        self.paint = Paint(colours_wanted(sys.stdout))
        self.is_on = os.environ.get("TERM", "dumb") != "dumb"
        self.drawn = Screen(session, self.paint)

    def show_stop(self):
        if self.is_on:
            self.write_all(self.drawn.lines(len(self.displays)))
        else:
            super().show_stop()

    def show_help(self, lines):
        """Shows lines wrapped to the window, as many at once as it has room for."""
        size = shutil.get_terminal_size()
        lines = [part for line in lines for part in wrapped_row(line, size.columns)]
        count = max(1, size.lines - 1)
        for first in range(0, len(lines), count):
            if first and not is_to_go_on(self.session):
                return
            self.write_all(lines[first : first + count])


def is_to_go_on(session):
    """Waits for Enter. False where the user types q, Ctrl-C or the end of the input."""
    session.interrupted = False
    sys.stdout.write(MORE)
    sys.stdout.flush()
    typed = sys.stdin.readline()
    return typed.strip() == "" != typed and not session.interrupted


def repeated(line):
    """What an empty line after this one means: the same again, or the words or lines that follow
    those that were shown."""
    try:
        command = command_table.find(line.split()[0].partition("/")[0])
    except command_table.Unknown:
        return ""
    if command.method in FOLLOWED and not line.endswith(" -"):
        return command.name
    return line if command.repeats else ""


class Lines:
    """The lines that a user types, with history and completion; an empty line gives the last
    command again if that makes sense."""

    def __init__(self, session):
        self.session = session
        self.last = ""
        self.found = []
        if readline:
            readline.parse_and_bind("tab: complete")
            readline.set_completer_delims(" \t")
            readline.set_completer(self.complete)
            readline.set_history_length(MOST_HISTORY)
            try:
                readline.read_history_file(history_file())
            except OSError:
                pass

    def complete(self, word, state):
        """The completion of a word with this number, or None."""
        if state == 0:
            line = readline.get_line_buffer()[: readline.get_endidx()]
            try:
                self.found = completion.choices(self.session, line, word)
            except Exception:  # pylint: disable=broad-except
                self.found = []
        return self.found[state] if state < len(self.found) else None

    def next(self):
        """The next line. Raises EOFError at the end."""
        line = input(PROMPT).strip()
        if not line:
            return self.last
        self.last = repeated(line)
        return line

    def keep(self):
        """Writes the history; that it can't be written is no error."""
        if readline:
            try:
                history_file().parent.mkdir(parents=True, exist_ok=True)
                readline.write_history_file(history_file())
            except OSError:
                pass
