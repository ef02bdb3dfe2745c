"""Plants faults in copies of the tools, each of which a check must report."""

import concurrent.futures
import os
import pathlib
import re
import shutil
import subprocess
import tempfile
from typing import NamedTuple

TOP = pathlib.Path(__file__).resolve().parents[2]


class Fault(NamedTuple):
    """A file of m36lib, a text that it has, and what is put in its place, once. The check is run
    with further words, and what it prints must have the pattern."""

    file: str
    old: str
    new: str
    words: tuple = ()
    says: str = ""


def is_reported(words, fault):
    """Whether a check, of which words are the tool and its operands, ends with status 1 in a copy
    with a fault planted in it, and says what is wrong."""
    with tempfile.TemporaryDirectory() as room:
        copy = pathlib.Path(room)
        for folder in ("tools", "examples", "editors", "docs", "vectors"):
            shutil.copytree(
                TOP / folder, copy / folder, ignore=shutil.ignore_patterns("__pycache__")
            )
        module = copy / "tools/m36lib" / fault.file
        text = module.read_text()
        module.write_text(text.replace(fault.old, fault.new, 1))
        command = [copy / "tools" / words[0], *words[1:], *fault.words]
        done = subprocess.run(command, capture_output=True, text=True)
    said = re.search(fault.says, done.stdout) and "Traceback" not in done.stderr
    return bool(fault.old in text and done.returncode == 1 and said)


def check_planted(words, faults):
    """Plants each fault, and prints those that are not reported. Their number."""
    with concurrent.futures.ThreadPoolExecutor(os.cpu_count()) as pool:
        reported = list(pool.map(lambda fault: is_reported(words, fault), faults))
    missed = [fault for fault, is_so in zip(faults, reported) if not is_so]
    for fault in missed:
        print(f"{fault.file}: {fault.old!r} as {fault.new!r} is not reported")
    print(f"{len(faults)} planted, {len(missed)} not reported")
    return len(missed)
