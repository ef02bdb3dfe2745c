"""Checks of tools/debug36 as a user has it: through a pipe, with signals, with a program that
answers otherwise, and the transcripts of docs/DEBUGGER.md."""

import os
import pathlib
import re
import shutil
import signal
import subprocess
import time

from . import cases
from .debugging import Session, command_table
from .made_folders import FOLDERS

HERE = pathlib.Path(__file__).resolve().parents[2]
DEBUG36 = HERE / "tools/debug36"
DOCUMENTS = ("docs/DEBUGGER.md", "docs/guide/whose-stack.md", "docs/guide/write.md")
BLOCK = re.compile(r"^```debug (\S+)(?: (\S+))?\n(.*?)^```$", re.M | re.S)
MOST_SECONDS = 120
WAIT = 20
LONG_STEPS = 100_000
MOST_SECONDS_OF_LONG = 5
MOST_PROCESSES = 20
LOOP = "core 2\ndbr 00000000 00001 1 0000\nstart 00001 0 000000\n"
ENDLESS = """ entry start
start: eax1 0
loop: adlx1 1,du
 stx1 pr6|0
 tra loop
"""
BOOT = "frames 24\nwork >u\nsegment >u main main object re 4 4 4\nstart 4 main$start\n"
HOSTILE = """\" main: \x1b[31mred\x1b]0;title\x07 \u202e <b>
 entry start
start: lda 0,dl \" \x1b[2J\x9b31m
 tra start
"""
# A program that answers otherwise than the machine: A is 123456 in answers to `regs`, step 3 has
# the outcome `fault 7` and step 13, the last one, `stop tag`, word 2 of main is 77, and the console
# writes another word.
WRAPPER = """#!/bin/sh
[ "$1" = debug ] || exec PROGRAM "$@"
PROGRAM "$@" | sed -u \
 -e 's/^a [0-7]* q/a 000000123456 q/' -e 's/^\\(3 .*\\) next$/\\1 fault 7/' \
 -e 's/^\\(00100|000002\\) .*/\\1 000000000077/' -e 's/^console hello/console jello/' \
 -e 's/^\\(13 .*\\) dis$/\\1 stop tag/'
"""


def environment(program):
    return {**os.environ, "M36_PROGRAM": str(program), "TERM": "dumb"}


def run(program, folder, commands, *words, what="."):
    """Gives commands through a pipe: standard output, standard error and the status."""
    done = subprocess.run(
        [DEBUG36, what, *words], cwd=folder, input="".join(f"{line}\n" for line in commands),
        capture_output=True, text=True, env=environment(program), timeout=MOST_SECONDS,
    )
    return done.stdout, done.stderr, done.returncode


def start(program, folder):
    return subprocess.Popen(
        [DEBUG36, folder], stdin=subprocess.PIPE, stdout=subprocess.PIPE, text=True,
        stderr=subprocess.PIPE, env=environment(program), start_new_session=True,
    )


def example(program, name, work):
    """A copy of an example, assembled."""
    folder = work / name
    if not folder.exists():
        shutil.copytree(cases.ROOT / "examples" / name, folder)
        cases.prepare(program, folder)
    return folder


def made(program, work, name, source):
    """A folder with a source of main alone."""
    folder = work / name
    folder.mkdir()
    (folder / "boot").write_text(BOOT)
    (folder / "main.alm").write_text(source)
    cases.run(program, folder, ["alm", "main"])
    return folder


def check_transcripts(program, work):
    """The transcripts of the documents are what the debugger writes."""
    for document in DOCUMENTS:
        blocks = BLOCK.findall((cases.ROOT / document).read_text())
        if not blocks:
            yield f"{document} has no transcript"
        for name, image, block in blocks:
            found = transcript(program, example(program, name, work), image or ".", block)
            if found != block:
                yield f"{document}: of {name} the debugger writes\n{found}"


def transcript(program, folder, what, block):
    """What the debugger writes from the first command of a transcript on."""
    commands = [line[2:] for line in block.splitlines() if line.startswith("> ")]
    found, _, _ = run(program, folder, commands, "--echo", what=what)
    return found[found.find("> "):]


def check_statuses(program, work):
    """Statuses, and the refusals of the program."""
    hello = example(program, "hello", work)
    bad = work / "bad"
    bad.mkdir()
    (bad / "boot").write_text("frames\n")
    (bad / "image").write_text("core 0\n")
    tries = (
        (hello, [], ["step", "quit", "fly"], ".", 0, ""),
        (hello, [], ["fly"], ".", 1, ""),
        (hello, [], ["goto", "x/9z .", "break nowhere$x", "p x9", "finish"], ".", 1, ""),
        (bad, [], ["step"], ".", 4, "m36: BadFile boot D1 1 0\n"),
        (bad, [], ["step"], "image", 4, "m36: BadFile image I2 1 0\n"),
        (bad, [], ["step"], "none", 2, "no such folder or file"),
        (hello, ["--fly"], [], ".", 2, "usage"),
    )
    for folder, words, commands, what, status, said in tries:
        out, err, found = run(program, folder, commands, *words, what=what)
        if found != status or said not in err:
            yield f"{commands}: status {found} and {err!r}, not {status} and {said!r}"
        refused = out.count("\n? ")
        if status == 1 and refused != len(commands):
            yield f"{commands}: {refused} refused of {len(commands)}"
    out, _, status = run("/bin/false/none", hello, [])
    if status != 70:
        yield f"without a program the status is {status}"


def check_stale(program, work):
    """An object that is not of its source is named."""
    folder = made(program, work, "stale", ENDLESS)
    (folder / "main.alm").write_text(ENDLESS.replace("adlx1 1", "adlx1 2"))
    out, err, status = run(program, folder, ["list"])
    if "main is not what main.alm assembles to" not in err or status:
        yield f"a stale object is not named: {status} {err!r}"
    if "adlx1 2" in out or "adlx1 1" not in out:
        yield "the source of a stale object is shown as if it were executed"


def check_hostile(program, work):
    """Nothing that a terminal could obey is written."""
    folder = made(program, work, "hostile", HOSTILE)
    out, err, _ = run(program, folder, ["step", "list", "\x1b[31m", "break \x1b[2J", "help",
                                        "x/4c .", "print '\x9b'", "info \x07"])
    found = {char for char in out + err if not char.isprintable() and char != "\n"}
    if found or "red" not in out:
        yield f"characters that a terminal could obey: {found}"


def check_answers(program, work):
    """What is shown of the machine is what the program answers, also where that is not so."""
    folder = example(program, "hello", work)
    wrapper = work / "wrapper"
    wrapper.write_text(WRAPPER.replace("PROGRAM", program))
    wrapper.chmod(0o755)
    commands = ["step 3", "why", "registers", "print a", "x main$start+2", "print [main|2]",
                "watch a", "trace 1", "continue", "console"]
    out, err, status = run(wrapper, folder, commands)
    expected = ("a 000000123456", "a = 000000123456", "Watchpoint 1: a is 000000123456",
                "main$start+2  000000000077", "[main|2] = 77 octal", "fault 7", "console: jello",
                "\njello\n", "did otherwise; the trace line is right: 13 0 00101|000001")
    missing = [part for part in expected if part not in out]
    if missing or status:
        yield f"with other answers of the program {missing} is not shown: {out} {err}"


def check_help(program, work):
    """Each command has help, and each name is of one command."""
    names = [name for each in command_table.COMMANDS for name in (each.name, *each.others)]
    if len(set(names)) != len(names):
        yield "a name is of two commands"
    folder = example(program, "hello", work)
    out, _, status = run(program, folder, ["help", *(f"help {name}" for name in names),
                                           "help places", "help expressions"])
    if status or any(f"  {each.name}" not in out for each in command_table.COMMANDS):
        yield "help does not list all commands"
    if any(out.count(each.text) != 1 + len(each.others) for each in command_table.COMMANDS):
        yield "help of a command is missing"


def children(process):
    """The numbers of the processes that a process has started."""
    found = []
    for path in pathlib.Path("/proc").glob("[0-9]*/stat"):
        try:
            fields = path.read_text().rpartition(")")[2].split()
        except OSError:
            continue
        if int(fields[1]) == process and fields[0] != "Z":
            found.append(int(path.parent.name))
    return found


def are_gone(numbers):
    deadline = time.monotonic() + WAIT
    while time.monotonic() < deadline:
        if not any(os.path.exists(f"/proc/{number}") for number in numbers):
            return True
        time.sleep(0.05)
    return False


def read_until(process, part):
    """Lines that a process writes up to one with a part."""
    lines = []
    for line in process.stdout:
        lines.append(line)
        if part in line:
            break
    return lines


def check_signals(program, work):
    """A killed debugger leaves nothing; an interruption stops a long run, and the session stays."""
    folder = made(program, work, "endless", ENDLESS)
    for number in (signal.SIGKILL, signal.SIGTERM):
        with start(program, folder) as debugger:
            debugger.stdin.write("step 5\ncontinue\n")
            debugger.stdin.flush()
            read_until(debugger, "step 5")
            started = children(debugger.pid)
            debugger.send_signal(number)
            debugger.wait(WAIT)
            if not started or not are_gone(started):
                yield f"signal {number} leaves {started}"
    with start(program, folder) as debugger:
        debugger.stdin.write("step 5\ncontinue\n")
        debugger.stdin.flush()
        read_until(debugger, "step 5")
        time.sleep(0.5)
        os.killpg(debugger.pid, signal.SIGINT)
        out, _ = debugger.communicate("print step\nquit\n", WAIT)
        if "Interrupted." not in out or not re.search(r"step = [0-7]+ octal", out):
            yield f"an interruption does not stop a run: {out[-300:]}"
        if debugger.returncode:
            yield f"after an interruption the status is {debugger.returncode}"
    with start(program, folder) as debugger:
        debugger.stdin.write("step 500000\nwho main|0\n")
        debugger.stdin.flush()
        read_until(debugger, "step 500000")
        time.sleep(0.5)
        os.killpg(debugger.pid, signal.SIGINT)
        out, _ = debugger.communicate("quit\n", WAIT)
        if "Interrupted." not in out or debugger.returncode:
            yield f"an interruption does not stop `who`: {out[-300:]}"
    with start(program, folder) as debugger:
        read_until(debugger, "step 0")
        os.killpg(debugger.pid, signal.SIGINT)
        if debugger.wait(WAIT) != 130:
            yield f"interrupted while it waits the status is {debugger.returncode}"


def check_killed_program(program, work):
    """A program that is ended from outside ends the debugger, with its status."""
    folder = example(program, "hello", work)
    with start(program, folder) as debugger:
        read_until(debugger, "main.alm:")
        for number in children(debugger.pid):
            os.kill(number, signal.SIGKILL)
        _, err = debugger.communicate("step\n", WAIT)
        if debugger.returncode != 70 or "Traceback" in err or "ended with status -9" not in err:
            yield f"with a killed program the status is {debugger.returncode}: {err!r}"


def check_pipes(program, work):
    """A reader that goes away is no error; a full disk is one."""
    folder = example(program, "hello", work)
    words = f"yes step | {DEBUG36} {folder} | head -n 1"
    done = subprocess.run(["bash", "-c", f"{words}; echo ${{PIPESTATUS[1]}}"], capture_output=True,
                          text=True, env=environment(program), timeout=MOST_SECONDS)
    if done.stderr or not done.stdout.endswith("\n0\n"):
        yield f"a reader that goes away: {done.stdout!r} {done.stderr!r}"
    with open("/dev/full", "w", encoding="ascii") as full:
        done = subprocess.run([DEBUG36, folder], input="step\n", stdout=full, text=True,
                              stderr=subprocess.PIPE, env=environment(program))
    if done.returncode != 3 or "Traceback" in done.stderr:
        yield f"a full disk: status {done.returncode} {done.stderr!r}"


def check_long(program, work):
    """100,000 steps forward and back, and more input than a process takes."""
    folder = made(program, work, "long", ENDLESS)
    with Session(program, str(folder)) as session:
        session.forward(LONG_STEPS)
        slowest = 0.0
        for target in (0, LONG_STEPS, 2 * LONG_STEPS, LONG_STEPS, 0, 2 * LONG_STEPS):
            began = time.monotonic()
            session.go_to(target)
            slowest = max(slowest, time.monotonic() - began)
            if session.step != target or session.ask("where")[0] != [f"4 {place_at(target)}"]:
                yield f"{target} steps end at step {session.step}"
        if slowest > MOST_SECONDS_OF_LONG:
            yield f"{LONG_STEPS} steps take {slowest:.1f} seconds"
        session.go_to(10)
        first = session.runs.at(10)
        for _ in range(40):
            session.words(0o14, 0, 4_000)
        if first in session.runs.kept or session.step != 10:
            yield "more than 1 MiB of input goes to one process"
        session.forward()
        if session.trace(11, 11)[0].split(" ")[0] != "11":
            yield "after 1 MiB of input the step is another one"


def counted(owner, name, at_call=lambda count: None):
    """Counts the calls of a method of a session or of its processes, in a list of one number."""
    count, method = [0], getattr(owner, name)

    def call(*words):
        count[0] += 1
        at_call(count[0])
        return method(*words)

    setattr(owner, name, call)
    return count


def check_conditions_back(program, work):
    """A condition that is mostly false is tested forward on the way back: with few processes. An
    interruption ends the tests, forward and back, and the next move goes on from there."""
    folder = made(program, work, "conditions", ENDLESS)
    with Session(program, str(folder)) as session:
        session.add_break("main$loop", "x1 == 5")
        session.go_to(6_001)
        begun = counted(session.runs, "begin")
        stop = session.back_go()
        if (stop.reason, session.step) != ("break", 16) or begun[0] > MOST_PROCESSES:
            yield f"back to a condition: {stop.reason} at {session.step}, {begun[0]} processes"
        if [added.hits for added in session.breaks.values()] != [1]:
            yield "breakpoints on the way back are counted as hits"
    with Session(program, str(folder)) as session:
        session.add_break("main$loop", "x1 == 0 && q == 1")
        session.go_to(6_001)
        for move in (session.back_go, session.go):
            before = session.step
            tested = counted(session, "view",
                             lambda count: session.interrupt() if count == 300 else None)
            stop = move()
            del session.view
            if stop.reason != "interrupt" or tested[0] > 301 or session.step == before:
                yield f"interrupted, {stop.reason} after {tested[0]} tests at {session.step}"


def place_at(step):
    """Where the endless program is after a step: one instruction, and then three in a loop."""
    return f"00100|{1 + (step - 1) % 3 if step else 0:06o}"


def check_unsure(program, work):
    """After ABSA the debugger says that going back is not sure."""
    made_folder = next(folder for folder in FOLDERS if folder.name == "ABSA and LDBR")
    cases.make_folder(program, work / "loaded", made_folder)
    out, _, _ = run(program, work / "loaded", ["step", "step"])
    if out.count("not sure") != 1:
        yield f"after ABSA it is not said that going back is not sure: {out}"


CHECKS = (
    check_transcripts, check_statuses, check_stale, check_hostile, check_answers, check_help,
    check_signals, check_killed_program, check_pipes, check_long,
    check_conditions_back, check_unsure,
)


def found_by(check, *given):
    """The lines of a check; if it breaks, that is one of them."""
    try:
        yield from check(*given)
    except Exception as error:  # pylint: disable=broad-except
        yield f"{check.__name__}: {type(error).__name__}: {error}"


def check_debug36(program, work, show=print):
    """The number of things that are not as they should be."""
    wrong = [line for check in CHECKS for line in found_by(check, program, work)]
    for line in wrong:
        show(line)
    show(f"debug36: {len(CHECKS)} checks through a pipe, {len(wrong)} things wrong")
    return len(wrong)
