"""Runs commands so that none is left when the tool that started them ends, and one at a time."""

import contextlib
import fcntl
import os
import signal
import subprocess
import time

ENDING = (signal.SIGHUP, signal.SIGINT, signal.SIGTERM)


class Ended(SystemExit):
    """A signal ended the tool; its status is 128 and the number of the signal."""


def end_by_signal():
    """Has the signals that end a tool raise an exception, so that what it began is cleared."""

    def ended(number, _frame):
        for it in ENDING:
            signal.signal(it, signal.SIG_IGN)
        raise Ended(128 + number)

    for number in ENDING:
        signal.signal(number, ended)


def children(parent):
    """Returns the words of each process that a process started, by its number."""
    found = {}
    for name in os.listdir("/proc"):
        if not name.isdigit():
            continue
        try:
            with open(f"/proc/{name}/stat", encoding="utf-8", errors="replace") as it:
                of = int(it.read().rpartition(")")[2].split()[1])
            if of == parent:
                with open(f"/proc/{name}/cmdline", encoding="utf-8", errors="replace") as it:
                    found[int(name)] = it.read().split("\0")
        except (OSError, ValueError, IndexError):
            # (it has ended)
            continue
    return found


def is_running(number):
    try:
        with open(f"/proc/{number}/stat", encoding="utf-8", errors="replace") as it:
            return it.read().rpartition(")")[2].split()[0] not in "ZX"
    except OSError:
        return False


def wait_for(numbers):
    """Waits until processes have ended, for some seconds at most."""
    for _ in range(50):
        numbers = [it for it in numbers if is_running(it)]
        if not numbers:
            return
        time.sleep(0.1)


@contextlib.contextmanager
def started(words, **how):
    """Starts a command in a process group of its own, which is killed when the caller is done.
    rt starts its commands in another group, and ends that one itself, when it ends."""
    left = []
    try:
        with subprocess.Popen(words, stdin=subprocess.DEVNULL, start_new_session=True,
                              **how) as ran:
            try:
                yield ran
            finally:
                left = list(children(ran.pid))
                with contextlib.suppress(ProcessLookupError):
                    os.killpg(ran.pid, signal.SIGKILL)
    finally:
        wait_for(left)


@contextlib.contextmanager
def alone(path, wait):
    """Holds the lock of a file; calls `wait` once where another process holds it."""
    os.makedirs(os.path.dirname(path), exist_ok=True)
    with open(path, "w", encoding="utf-8") as lock:
        try:
            fcntl.flock(lock, fcntl.LOCK_EX | fcntl.LOCK_NB)
        except BlockingIOError:
            wait()
            fcntl.flock(lock, fcntl.LOCK_EX)
        yield
