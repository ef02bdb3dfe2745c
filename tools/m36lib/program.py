"""Which program the tools run: the one that is built at the top of the repository, or the installed
m36."""

import os
import pathlib
import shutil
import subprocess
import sys

TOP = pathlib.Path(__file__).resolve().parents[2]
NOT_PROVED = "m36: not proved on this machine; ./prove does that"


class NoProgram(Exception):
    """There is no program to run."""


def find_program(may_build=True):
    """The path of the program: M36_PROGRAM where it is set, that of the repository, or the one that
    was installed with the tool, or else is on the path."""
    given = os.environ.get("M36_PROGRAM")
    if given:
        return existing(pathlib.Path(given).resolve())
    if (TOP / "crates.txt").is_file():
        return built(may_build)
    installed = TOP / "m36"
    found = str(installed) if installed.is_file() else shutil.which("m36")
    if found:
        return found
    raise NoProgram("there is no m36 on the path, and M36_PROGRAM does not name one")


def existing(path):
    if not os.access(path, os.X_OK) or path.is_dir():
        raise NoProgram(f"{path}, which M36_PROGRAM names, is no program that can be run")
    return str(path)


def built(may_build):
    """The program of the repository, as ./m36 chooses it: the proved one if it is current. Otherwise
    the one that tools/keep-unproved builds, in one to three minutes the first time; a line on
    standard error says that it is not proved, unless M36_QUIET is set."""
    program = TOP / "crates/m36/out/m36"
    current = TOP / "tools/is-current"
    if subprocess.run([current]).returncode == 0:
        return str(program)
    is_kept = subprocess.run([current, "--kept"]).returncode == 0
    if not is_kept and not may_build:
        raise NoProgram("the program is not built, or is older than its sources: ./m36 --help "
                        "builds it")
    if not is_kept and subprocess.run([TOP / "tools/keep-unproved"]).returncode:
        raise NoProgram("the program could not be built")
    if not os.environ.get("M36_QUIET"):
        print(NOT_PROVED, file=sys.stderr, flush=True)
    return f"{program}.unproved"
