"""Runs programs over one input by turns, and keeps the best time and the most memory of each."""

import os
import subprocess
import time
from typing import NamedTuple

MEBI = 1 << 20


class Failed(Exception):
    """A program could not be run, or took longer than it may."""


class Run(NamedTuple):
    """One run: processor seconds, the most memory in bytes, status, and its last error line."""

    seconds: float
    memory: int
    status: int
    line: str


def run(program, words, folder, given, most_seconds):
    """Runs a program in a folder, with its output thrown away, and measures this child alone."""
    errors = folder / "errors.of.run"
    source = folder / given if given else os.devnull
    with open(source, "rb") as read, open(errors, "wb") as told:
        try:
            child = subprocess.Popen(
                [program, *words], cwd=folder, stdin=read, stdout=subprocess.DEVNULL, stderr=told
            )
        except OSError as error:
            raise Failed(f"{program}: {error.strerror}") from error
    used, status = awaited(child, most_seconds)
    lines = errors.read_text(errors="replace").splitlines()
    errors.unlink()
    if used is None:
        raise Failed(f"{program} {' '.join(words)}: over {most_seconds} seconds")
    return Run(
        used.ru_utime + used.ru_stime, used.ru_maxrss * 1024, status, lines[-1] if lines else ""
    )


def awaited(child, most_seconds):
    """What the child used and its status; no use where it was ended because of the limit."""
    end = time.monotonic() + most_seconds
    pause = 0.001
    while True:
        number, status, used = os.wait4(child.pid, os.WNOHANG)
        if number:
            child.returncode = os.waitstatus_to_exitcode(status)
            return used, child.returncode
        if time.monotonic() > end:
            child.kill()
            os.wait4(child.pid, 0)
            child.returncode = -9
            return None, -9
        time.sleep(pause)
        pause = min(0.02, 2 * pause)


class Best(NamedTuple):
    """The best time and the least peak of memory of some runs of one program."""

    seconds: float
    memory: int
    status: int
    line: str


def best_of(runs):
    last = runs[-1]
    seconds = min(one.seconds for one in runs)
    memory = min(one.memory for one in runs)
    return Best(seconds, memory, last.status, last.line)
