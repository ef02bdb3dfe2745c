"""Tests that the program's own answer comes through: output, status, signals, time."""

import contextlib
import os
import pathlib
import pty
import re
import shutil
import signal
import subprocess
import tempfile
import threading

from speak_tests.answering import HELP, ROOT, TOOLS, Tried, run

LEAST = ROOT / "examples/least/least"
USAGE = ["rum"]
SHORT = ["bare", "least", "--steps=1"]
# What takes longer hangs.
SECONDS = 60


def stub(folder, script):
    """A program that is this shell script."""
    path = pathlib.Path(folder, "stub")
    path.write_text(f"#!/bin/sh\n{script}\n")
    path.chmod(0o755)
    return Tried(path)


@contextlib.contextmanager
def started(command, **settings):
    """A command that runs meanwhile, and is killed with all it started where it takes too long."""
    with subprocess.Popen(command, start_new_session=True, **settings) as child:
        timer = threading.Timer(SECONDS, os.killpg, (child.pid, signal.SIGKILL))
        timer.start()
        try:
            yield child
        finally:
            timer.cancel()


def same(direct, spoken, what):
    """Whether two answers are equal in status and output, and standard error too."""
    keys = ("returncode", "stdout", "stderr")
    return [f"{what}: {k}" for k in keys if getattr(direct, k) != getattr(spoken, k)]


def a_pipe_adds_nothing(tried):
    """Without a terminal, and with M36_PLAIN, the answer is the program's own."""
    plain = {**os.environ, "M36_PLAIN": "1"}
    wrong = []
    with tempfile.TemporaryDirectory() as folder:
        shutil.copy(LEAST, folder)
        for words in (USAGE, ["print", "absent"], ["bare", "least"], SHORT):
            direct = tried.directly(words, folder)
            piped = run([tried.speak, tried.program, *words], folder)
            wrong += same(direct, piped, f"{words} in a pipe")
            wrong += same(direct, tried.spoken(words, folder, env=plain), f"{words} with M36_PLAIN")
    return wrong


def on_terminal(command, folder, **variables):
    """What a command prints on a terminal, and its status."""
    leader, follower = pty.openpty()
    settings = {"stdin": follower, "stdout": follower, "stderr": follower, "cwd": folder}
    with started(command, env={**os.environ, **variables}, **settings) as child:
        os.close(follower)
        said = b""
        try:
            while more := os.read(leader, 65536):
                said += more
        except OSError:
            pass
        os.close(leader)
        return said.replace(b"\r\n", b"\n").decode(), child.wait()


def a_terminal_gets_words(tried):
    """On a real terminal the words come, in order, and M36_PLAIN leaves them out."""
    wrong = []
    with tempfile.TemporaryDirectory() as folder:
        pathlib.Path(folder, "e.alm").write_text(" lda x,qqq\n")
        command = [tried.speak, tried.program, "alm", "e"]
        said, status = on_terminal(command, folder)
        if not re.match(r'm36: BadFile e\.alm E2 1 6\n   lda x,qqq\n       \^\nE2: .*"qqq"', said):
            wrong.append(f"the answer is {said!r}")
        bare, _ = on_terminal(command, folder, M36_PLAIN="1")
        if status != 4 or bare != "m36: BadFile e.alm E2 1 6\n":
            wrong.append(f"status {status}; with M36_PLAIN {bare!r}")
        said, status = on_terminal([tried.speak, tried.program, *USAGE], folder)
        if status != 1 or not re.match(r'm36: Usage\nUsage: .*"rum"', said):
            wrong.append(f"the answer to {USAGE} is {said[:200]!r}")
    return wrong


def the_help_is_whole(tried):
    """After Usage come the words, and then the help byte for byte."""
    with tempfile.TemporaryDirectory() as folder:
        direct = tried.directly(USAGE, folder).stderr.decode()
        spoken = tried.spoken(USAGE, folder).stderr.decode()
    first, start = "m36: Usage\n", spoken.find(HELP)
    words = spoken[len(first) : start]
    if first + spoken[start:] == direct and words.startswith("Usage: ") and '"rum"' in words:
        return []
    return [f"the help is {spoken!r}"]


def statuses_come_through(_tried):
    """Each status is that of the program; a signal gives 128 and its number."""
    wrong = []
    with tempfile.TemporaryDirectory() as folder:
        for status in (*range(9), 70, 255):
            done = stub(folder, f"exit {status}").spoken([], folder)
            wrong += [f"status {status}: {done.returncode}"] * (done.returncode != status)
        for number in (signal.SIGTERM, signal.SIGSEGV, signal.SIGILL, signal.SIGKILL):
            done = stub(folder, f"kill -{int(number)} $$").spoken([], folder)
            right = done.returncode == 128 + number and str(int(number)) in done.stderr.decode()
            wrong += [f"signal {number}: {done}"] * (not right)
    return wrong


def signals_go_to_the_program(_tried):
    """A signal that ends a program ends it here too; one that it takes is taken by it."""
    wrong = []
    with tempfile.TemporaryDirectory() as folder:
        for number in (signal.SIGTERM, signal.SIGINT, signal.SIGHUP):
            signal.signal(number, signal.SIG_DFL)
            name = number.name.removeprefix("SIG")
            script = f"trap 'exit 5' {name}\necho ready\nwhile :; do sleep 0.05; done"
            tried = stub(folder, script)
            command = [tried.speak, "--always", tried.program]
            pipes = {"stdout": subprocess.PIPE, "stderr": subprocess.DEVNULL}
            with started(command, **pipes) as child:
                child.stdout.readline()
                child.send_signal(number)
                status = child.wait()
            wrong += [f"{name}: status {status}"] * (status != 5)
    return wrong


def sessions_answer_in_time(tried):
    """Each line of a session is answered before the next is given."""
    with tempfile.TemporaryDirectory() as folder:
        shutil.copy(LEAST, folder)
        command = [tried.speak, "--always", tried.program, "debug", "least"]
        pipes = {"stdin": subprocess.PIPE, "stdout": subprocess.PIPE, "stderr": subprocess.PIPE}
        with started(command, cwd=folder, bufsize=0, **pipes) as child:
            answers = []
            for line in (b"where\n", b"step\n", b"where\n"):
                child.stdin.write(line)
                answers.append(child.stdout.readline())
            child.stdin.write(b"quit\n")
            status = child.wait()
    right = answers[0] == b"0 00001|000000\n" and answers[2] == b"0 00001|000001\n"
    return [] if right and status == 0 else [f"{answers}, status {status}"]


def standard_error_comes_in_time(_tried):
    """What the program says on standard error is printed while it still runs."""
    waiting = "while [ ! -e go ]; do sleep 0.05; done"
    with tempfile.TemporaryDirectory() as folder:
        tried = stub(folder, f"echo m36: first >&2\n{waiting}\necho second >&2\nexit 3")
        command = [tried.speak, "--always", tried.program]
        with started(command, cwd=folder, stderr=subprocess.PIPE) as child:
            first = child.stderr.readline()
            pathlib.Path(folder, "go").touch()
            rest = child.stderr.read()
    right = first == b"m36: first\n" and rest.startswith(b"second\n")
    return [] if right else [f"{first}, {rest}"]


def closed_files_stay_closed(tried):
    """With closed input, output or standard error the status is the program's."""
    wrong = []
    with tempfile.TemporaryDirectory() as folder:
        shutil.copy(LEAST, folder)
        for closing in ("<&-", ">&-", "2>&-", "<&- >&- 2>&-", "> /dev/full"):
            for words in ("debug least", "bare least", "print absent"):
                outcomes = []
                for start in (tried.program, f"{tried.speak} --always {tried.program}"):
                    line = f"{start} {words} {closing}"
                    outcomes.append(run(["sh", "-c", line], folder).returncode)
                wrong += [f"{words} {closing}: {outcomes}"] * (outcomes[0] != outcomes[1])
    return wrong


def a_missing_program_is_named(_tried):
    """Without a program the status is 70, and nothing of Python is shown."""
    wrong = []
    for words in (["--always", "/no/such\x1b"], ["/no/such"], ["--always"], []):
        done = run([str(TOOLS / "speak"), *words], "/")
        if done.returncode != 70 or b"Traceback" in done.stderr or not done.stderr:
            wrong.append(f"{words}: {done}")
    return wrong


# Faults of tools/speak itself, by the file that is broken and what is written into it.
BREAKS = {
    "no library": (None, ""),
    "an import that fails": ("speech.py", "import nosuchmodule\n"),
    "a syntax error": ("speech.py", "def (\n"),
    "an error in words": ("refusals.py", "def refusal_in_words(line):\n    raise RuntimeError\n"),
    "an error in usage": ("usage.py", "def wrong_word(words):\n    return words[99]\n"),
    "an endless recursion": ("ends.py", "def end_in_words(*a):\n    return end_in_words(*a)\n"),
}


def a_broken_speech_does_no_harm(tried):
    """Whatever fails in tools/speak, the program's answer and status come through."""
    wrong = []
    calls = (USAGE, ["alm", "e"], SHORT)
    with tempfile.TemporaryDirectory() as folder:
        shutil.copy(LEAST, folder)
        pathlib.Path(folder, "e.alm").write_text(" lda x,qqq\n")
        for what, (name, text) in BREAKS.items():
            copy = pathlib.Path(folder, what.replace(" ", "_"))
            shutil.copytree(TOOLS, copy, ignore=shutil.ignore_patterns("__pycache__"))
            library = copy / "m36lib"
            if name:
                (library / name).write_text(text)
            else:
                shutil.rmtree(library)
            broken = Tried(tried.program, copy)
            for words in calls:
                direct, spoken = tried.directly(words, folder), broken.spoken(words, folder)
                lines = spoken.stderr.split(b"\n")
                right = all(line in lines for line in direct.stderr.split(b"\n"))
                right &= b"Traceback" not in spoken.stderr
                right &= (direct.returncode, direct.stdout) == (spoken.returncode, spoken.stdout)
                wrong += [f"{what}, {words}: {spoken}"] * (not right)
    return wrong


TESTS = (
    a_pipe_adds_nothing,
    a_terminal_gets_words,
    the_help_is_whole,
    statuses_come_through,
    signals_go_to_the_program,
    sessions_answer_in_time,
    standard_error_comes_in_time,
    closed_files_stay_closed,
    a_missing_program_is_named,
    a_broken_speech_does_no_harm,
)
