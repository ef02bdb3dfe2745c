"""Checks of tools/debug36 on a terminal, under tmux: screen, keys, completion and history."""

import os
import re
import shutil
import subprocess
import time

from .check_debug36 import DEBUG36, ENDLESS, example, found_by, made
from .debugging import Session, command_table, show
from .debugging.fitting import wrapped_row
from .debugging.screen import Paint, Screen

WAIT = 30
SIZE = ("110", "50")
SPARE = 1
WINDOWS = (("60", "21"), ("80", "24"), ("80", "40"), ("132", "30"), SIZE)
COLOURS = re.compile(r"\x1b\[[0-9;]*m")
SERVANT_STEPS = 14
# Steps of examples/servant, one after another, with the registers that each changes.
CHANGED = ((1, ("a",)), (2, ()), (3, ("pr2",)), (6, ("pr7",)))
HEADINGS = ("registers", "rings", "calls", "trace", "next")


class Pane:
    """A terminal in which the debugger runs."""

    def __init__(self, program, folder, home, size=SIZE):
        self.name = f"m36-{os.getpid()}-{time.monotonic_ns()}"
        words = ["env", f"HOME={home}", f"M36_PROGRAM={program}", "XDG_STATE_HOME=", "TERM=screen",
                 str(DEBUG36), str(folder)]
        self.tmux("-f", "/dev/null", "new-session", "-d", "-x", size[0], "-y", size[1], *words)

    def __enter__(self):
        return self

    def __exit__(self, *_):
        self.tmux("kill-server")

    def tmux(self, *words):
        environment = {name: value for name, value in os.environ.items() if name != "TMUX"}
        done = subprocess.run(["tmux", "-L", self.name, *words], capture_output=True, text=True,
                              env=environment)
        return done.stdout

    def type(self, *keys):
        self.tmux("send-keys", *keys)

    def text(self, *words):
        return self.tmux("capture-pane", "-p", *words)

    def wait_for(self, pattern, end=r"\(m36\)[^\n]*\s*\Z"):
        """The text once it has the pattern and a prompt at its end; None if it never has."""
        deadline = time.monotonic() + WAIT
        while time.monotonic() < deadline:
            text = self.text()
            if re.search(pattern, text) and re.search(end, text):
                return text
            time.sleep(0.1)
        return None

    def has_ended(self):
        deadline = time.monotonic() + WAIT
        while time.monotonic() < deadline:
            if not self.tmux("list-sessions"):
                return True
            time.sleep(0.1)
        return False


def check_keys(program, work):
    """What is typed, and what is shown then. Each pattern must come before the next is typed."""
    folder = example(program, "servant", work)
    typed = (
        ((), r"step 0  ring 4  main\$start"),
        (("b gate_$f", "Tab"), r"b gate_\$fetch"),
        (("Enter",), r"Breakpoint 1 at gate_\$fetch"),
        (("c", "Enter"), r"Breakpoint 1: gate_\$fetch\.\nstep 6  ring 1"),
        (("s", "Enter"), r"step 7  ring 1"),
        (("Enter",), r"step 8  ring 1"),
        (("Up",), r"\(m36\) s\s*\Z"),
        (("C-c",), r"\(m36\)\s*\Z"),
        (("back", "Enter"), r"step 7  ring 1"),
        (("info br", "Tab"), r"info breakpoints"),
        (("Enter",), r"hits 1"),
        (("screen off", "Enter"), r"screen off\n"),
        (("rc", "Enter"), r"Breakpoint 1: gate_\$fetch\.\nstep 6  ring 1"),
    )
    with Pane(program, folder, work) as pane:
        for keys, pattern in typed:
            pane.type(*keys)
            text = pane.wait_for(pattern)
            if text is None:
                yield f"after {keys} the screen has no {pattern}:\n{pane.text()}"
                return
            if keys == ("s", "Enter"):
                yield from wrong_screen(text, pane.text("-e"))
        pane.type("q", "Enter")
        if not pane.has_ended():
            yield "q does not leave the debugger"


def wrong_screen(text, coloured):
    """What is wrong with the screen after the seventh step of the servant."""
    missing = [name for name in HEADINGS if f"-- {name} --" not in text]
    if missing:
        yield f"the screen has no {missing}"
    for part in ("=>    4  in: lda pr2|0,*", "pr2 4:00100|000010 00  main$start+10",
                 "ring 1 executes since step 6; asked in: ring 1 by pr7, ring 4 by pr0 pr1 pr2",
                 "#0  ring 1  gate_|1", "7 1 00101|000000", "May ring 4 read main$start+10? Yes"):
        if part not in text:
            yield f"the screen has no {part!r}"
    if "\x1b[" not in coloured:
        yield "the screen has no colours"


def check_interrupted(program, work):
    """Ctrl-C stops a long run; a small terminal is enough."""
    folder = made(program, work, "endless-screen", ENDLESS)
    with Pane(program, folder, work, ("60", "15")) as pane:
        if pane.wait_for("step 0") is None:
            yield "a small terminal has no screen"
        pane.type("c", "Enter")
        time.sleep(1)
        pane.type("C-c")
        if pane.wait_for(r"Interrupted\.\nstep \d+") is None:
            yield f"Ctrl-C does not stop a run:\n{pane.text()}"
        pane.type("C-d")
        if not pane.has_ended():
            yield "Ctrl-D does not leave the debugger"


def drawn(screen, size, spare=0):
    """The lines of a screen in a window of a size, with some lines left for others."""
    kept = {name: os.environ.get(name) for name in ("COLUMNS", "LINES")}
    os.environ.update(zip(kept, map(str, size)))
    try:
        return screen.lines(spare)
    finally:
        for name, value in kept.items():
            os.environ.pop(name)
            if value is not None:
                os.environ[name] = value


def check_windows(program, work):
    """In windows of some sizes each stop fits, with its source and all that comes next; and the
    registers that have changed are marked, with colours and without."""
    with Session(program, str(example(program, "servant", work))) as session:
        for size in WINDOWS:
            for is_coloured in (False, True):
                screen = Screen(session, Paint(is_coloured))
                for step in range(SERVANT_STEPS + 1):
                    session.go_to(step)
                    lines = drawn(screen, size, 0 if is_coloured else SPARE)
                    for problem in unfit(session, lines, size, 0 if is_coloured else SPARE):
                        yield f"{size}, step {step}, colours {is_coloured}: {problem}"
        session.go_to(0)
        screen = Screen(session, Paint(False))
        for step, changed in CHANGED:
            session.go_to(step)
            text = "\n".join(drawn(screen, SIZE))
            found = tuple(re.findall(r"\*(\w+) ", text))
            if found != changed:
                yield f"step {step} marks {found}, not {changed}"


def unfit(session, lines, size, spare):
    """What is wrong with the lines of a stop in a window."""
    plain = [COLOURS.sub("", line) for line in lines]
    if len(plain) > int(size[1]) - 2 - spare:
        yield f"{len(plain)} lines"
    if longest := [line for line in plain if len(line) > int(size[0])]:
        yield f"too long: {longest}"
    if sum(line.startswith("=>") for line in plain) != 1:
        yield "the source has no line that is next"
    heading = "-- why --" if session.ended else "-- next --"
    at = [index for index, line in enumerate(plain) if line.startswith(heading)]
    words = " ".join(show.stop_lines(session)).split()
    if len(at) != 1 or " ".join(plain[at[0] + 1 :]).split() != words:
        yield f"what comes next is not whole: {plain}"


def check_wrapped(_program, _work):
    """Help is wrapped between words, and keeps them all."""
    for width in (80, 100):
        for line in command_table.overview():
            found = wrapped_row(line, width)
            if " ".join(found).split() != line.split() or max(map(len, found)) > width:
                yield f"help in {width} columns: {found}"


def check_help_pages(program, work):
    """`help` shows a window at a time, from its first line on; q leaves it."""
    with Pane(program, example(program, "servant", work), work, ("80", "24")) as pane:
        pane.wait_for("step 0")
        for keys, pattern in (
            (("help", "Enter"), r"\AForward:\n.*\n-- Enter shows more"),
            (("Enter",), r"\n  break, b.*\n-- Enter shows more"),
            (("q", "Enter"), r"q Enter ends --q\n\(m36\)\s*\Z"),
        ):
            pane.type(*keys)
            text = pane.wait_for(f"(?s){pattern}", "")
            if text is None:
                yield f"after {keys} help has no {pattern}:\n{pane.text()}"
                return


CHECKS = (check_windows, check_wrapped)
ON_TERMINAL = (check_keys, check_interrupted, check_help_pages)


def check_debug_screen(program, work, show=print):
    """The number of things that are not as they should be."""
    checks = [*CHECKS, *ON_TERMINAL]
    if not shutil.which("tmux"):
        show("skipped: the debugger on a terminal was not tried: there is no tmux")
        checks = CHECKS
    wrong = [line for check in checks for line in found_by(check, program, work)]
    for line in wrong:
        show(line)
    show(f"debug screen: {len(WINDOWS)} sizes of windows, {len(checks) - len(CHECKS)} sessions "
         f"under tmux, {len(wrong)} things wrong")
    return len(wrong)
