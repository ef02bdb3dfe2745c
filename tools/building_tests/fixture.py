"""What the cases share: copies of the repository, stand-ins for rt, and runs of commands."""

import os
import pathlib
import shutil
import subprocess
import sys
import time

from building import kit

# What rt says of itself here; a stand-in for rt says the same, since a build is as new as its kit.
KIT = kit.ask("version")
ROOT = pathlib.Path(__file__).resolve().parents[2]
SECONDS = 600
LEFT_OUT = shutil.ignore_patterns("out", ".git", "__pycache__")
# A stand-in for rt: each word that it takes, with what it does in the crate's folder.
RT = """#!/bin/sh
case $1 in
    version) echo '{version}' ;;
    all) {all} ;;
    run) {run} ;;
    *) echo "this rt is a stand-in, and does not know $*" >&2; exit 9 ;;
esac
"""
PROVED = "for name in m36_word m36_top m36; do printf '== %s\\nlogic=proved\\n' $name; done"
BUILDS = "printf '#!/bin/sh\\necho proved \"$@\"\\n' > out/m36; chmod +x out/m36; exit 1"


class Wrong(Exception):
    """A case found something that should not be so."""


def expect(holds, text):
    if not holds:
        raise Wrong(text)


class Ran:
    """The status and the output of a command."""

    def __init__(self, status, output, errors):
        self.status, self.output, self.errors = status, output, errors

    def __str__(self):
        return f"status {self.status}, output {self.output[:400]!r}, errors {self.errors[:400]!r}"


def run(words, folder, given="", **environment):
    """Runs a command with its output in pipes, and returns what it did."""
    known = {name: text for name, text in os.environ.items() if not name.startswith("M36_")}
    ran = subprocess.run(words, cwd=folder, input=given, capture_output=True, text=True,
                         errors="replace", env={**known, **environment}, timeout=SECONDS,
                         check=False)
    return Ran(ran.returncode, ran.stdout, ran.stderr)


def copy_of(folder, parts=("crates", "docs", "editors", "examples", "tools", "vectors", "bench")):
    """Copies the repository without what was built, with the times of its files."""
    to = pathlib.Path(folder) / "copy"
    for name in parts:
        shutil.copytree(ROOT / name, to / name, ignore=LEFT_OUT)
    for path in ROOT.iterdir():
        if path.is_file():
            shutil.copy2(path, to / path.name)
    (to / "crates/m36/out").mkdir()
    return to


def give_kept(copy):
    """Gives a copy the unproved program of this repository."""
    for name in ("m36.unproved", "m36.unproved.built"):
        shutil.copy2(ROOT / "crates/m36/out" / name, copy / "crates/m36/out" / name)


def path_with(folder, version, does=PROVED, builds=BUILDS):
    """Returns a PATH on which rt is a stand-in, and python3 this Python."""
    made = pathlib.Path(folder) / "bin"
    made.mkdir(exist_ok=True)
    (made / "rt").write_text(RT.format(version=version, all=does, run=builds))
    (made / "rt").chmod(0o755)
    if not (made / "python3").exists():
        (made / "python3").symlink_to(sys.executable)
    return f"{made}:/usr/bin:/bin"


def processes_of(text):
    """Returns the command lines that have a text in them, but for this process."""
    found = []
    for path in pathlib.Path("/proc").glob("[0-9]*/cmdline"):
        try:
            words = path.read_bytes().replace(b"\0", b" ").decode(errors="replace")
        except OSError:
            continue
        if text in words and path.parent.name != str(os.getpid()):
            found.append(words)
    return found


def wait_until(holds, seconds, text):
    """Waits until a call returns something that counts as true, and returns it."""
    until = time.monotonic() + seconds
    while time.monotonic() < until:
        found = holds()
        if found:
            return found
        time.sleep(0.05)
    raise Wrong(f"after {seconds} seconds {text}")
