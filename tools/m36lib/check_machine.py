"""Checks of the machine through a pipe: sessions that begin again, going back, refusals, and that
no process is left."""

import os
import pathlib
import signal
import subprocess
import sys
import time

from . import cases
from .machine import Machine, Refusal, seg_line

STEPS_GONE_BACK = 150
SMALL_INPUT = 300
WAIT = 10
HOLDER = f"""
import sys, time
sys.path.insert(0, sys.argv[1])
from {__package__}.machine import Machine
machine = Machine(sys.argv[2], sys.argv[3])
print(machine.session.process.pid, flush=True)
time.sleep(60)
"""


def whole_run(machine, steps):
    """What each step writes and the registers after it, until the run ends."""
    found = []
    for _ in range(steps):
        answers = machine.ask("step", "regs", "where")
        found.append(answers)
        if answers[0][-1].startswith("end "):
            break
    return found


def check_renewed(program, case):
    """A machine whose sessions are short does what one does that has a single session."""
    with Machine(program, case.folder, case.image) as machine:
        expected = whole_run(machine, STEPS_GONE_BACK)
        sessions = machine.session
    with Machine(program, case.folder, case.image, most_input=SMALL_INPUT) as machine:
        found = whole_run(machine, STEPS_GONE_BACK)
        begun_again = machine.session is not sessions
    if found != expected:
        yield f"{case.name}: a run over several sessions differs"
    if len(expected) > SMALL_INPUT // 20 and not begun_again:
        yield f"{case.name}: no session was begun again"


def check_back(program, case):
    """Back, and then a step, is that step again, at each step."""
    with Machine(program, case.folder, case.image) as machine:
        where = machine.ask("where")[0]
        for number in range(1, STEPS_GONE_BACK):
            step, regs, after = machine.ask("step", "regs", "where")
            if step[0].startswith("end "):
                break
            back = machine.back()
            if [back] != where or machine.taken != number - 1:
                yield f"{case.name}: back from step {number} comes to {back}, not {where[0]}"
            if machine.ask("step", "regs", "where") != [step, regs, after]:
                yield f"{case.name}: back and a step from step {number} is another step"
            if step[-1].startswith("end "):
                break
            where = after
        if machine.back(machine.taken + 1) is not None:
            yield f"{case.name}: goes back more steps than it has taken"


def check_input(program, folder):
    """More than 1 MiB of input: the step and the breaks are kept."""
    with Machine(program, folder, "loops") as machine:
        machine.ask("step 7")
        machine.add_break(1, 0)
        first = machine.session
        machine.ask(*["~" * 250] * 5000)
        (step,) = machine.ask("step")
        if machine.session is first or not step[0].startswith("8 "):
            yield f"after 1 MiB of input the step is {step[0]}"
        if machine.ask("go")[0] != ["0 00001|000000"]:
            yield "after 1 MiB of input the break is gone"
        if machine.count() != 9:
            yield f"after go {machine.count()} steps are counted, not 9"
        machine.drop_break(1, 0)
        machine.add_break(1, 1)
        if machine.breaks != [(1, 1)] or machine.count() != 9:
            yield f"after a break is dropped there are {machine.breaks} at {machine.count()}"
        for word in range(2, 17):
            machine.add_break(1, word)
        if machine.add_break(1, 17) or len(machine.breaks) != 16:
            yield "a seventeenth break is taken"


def check_refusals(program, work):
    """The status and the line of a program that refuses are those of the program."""
    folder = work / "refused"
    folder.mkdir()
    (folder / "bad").write_text("core 0\n")
    (folder / "boot").write_text("frames\n")
    for image, line in ((None, "BadFile boot D1 1 0"), ("bad", "BadFile bad I2 1 0"),
                        ("none", "BadFile none F1 0 0")):
        try:
            with Machine(program, folder, image):
                yield f"{image} is not refused"
        except Refusal as refusal:
            if (refusal.status, refusal.text) != (4, f"m36: {line}\n"):
                yield f"{image}: {refusal.status} {refusal.text!r}, not {line}"


def is_gone(process):
    try:
        os.kill(process, 0)
    except ProcessLookupError:
        return True
    return False


def check_killed(program, folder):
    """A caller that is killed leaves no process; and a machine that is killed is reported."""
    tools = str(pathlib.Path(__file__).resolve().parents[1])
    words = [sys.executable, "-c", HOLDER, tools, program, str(folder)]
    with subprocess.Popen(words, stdout=subprocess.PIPE) as holder:
        process = int(holder.stdout.readline())
        holder.send_signal(signal.SIGKILL)
    deadline = time.monotonic() + WAIT
    while not is_gone(process) and time.monotonic() < deadline:
        time.sleep(0.02)
    if not is_gone(process):
        yield "a killed caller leaves its machine"
    with Machine(program, folder) as machine:
        machine.session.process.kill()
        try:
            machine.ask("step", seg_line(0o100, 0))
            yield "a killed machine answers"
        except Refusal as refusal:
            if refusal.status != -signal.SIGKILL:
                yield f"a killed machine has the status {refusal.status}"


def check_machine(program, work, show=print):
    """The number of things that are not as they should be."""
    wrong, runs = [], 0
    hello = None
    for case in cases.examples(program, work):
        runs += 1
        wrong += [*check_renewed(program, case), *check_back(program, case)]
        hello = case.folder if case.name == "hello" else hello
    wrong += [*check_input(program, cases.ROOT / "docs/sessions")]
    wrong += [*check_refusals(program, work), *check_killed(program, hello)]
    for line in wrong:
        show(line)
    show(f"machine: {runs} runs gone back and begun again, {len(wrong)} things wrong")
    return len(wrong)
