"""Cases of the unproved program: it passes the checks that the proved one passes, and an overflow
stops it."""

import pathlib
import subprocess

from building import unproved

from .fixture import ROOT, copy_of, expect, run

PROGRAM = ROOT / "crates/m36/out/m36.unproved"
CHECKS = ("docs/check", "docs/guide/check", "docs/sessions/check", "vectors/check")
# Adds the number of its words to 250 in a byte, and reads an array at that number.
TINY = """//! Counts its words in a byte.
#![tactic(auto)]

use std::env;
use std::io;

fn main(rt: HostRuntime) -> io::Result<()> {
    let mut sum: u8 = 250;
    for _word in env::args(&rt)? {
        sum = sum + 1;
    }
    println!(rt; "{sum}")?;
    Ok(())
}
"""
# An edit after which each line of a trace adds up to more than a byte holds.
OVERFLOW = ("crates/m36_trace/src/digits.rt", "[b'0' + ring]", "[b'0' + ring + 208]")


def case_checks(_folder):
    """The unproved program passes each check."""
    for check in CHECKS:
        ran = subprocess.run([ROOT / check, PROGRAM], cwd=ROOT, stdin=subprocess.DEVNULL,
                             stdout=subprocess.PIPE, stderr=subprocess.STDOUT, text=True,
                             errors="replace", check=False)
        expect(ran.returncode == 0, f"{check} with the unproved program:\n{ran.stdout[-2000:]}")


def case_traps(folder):
    """A sum that wraps stops a program that is built so, and no smaller one does."""
    root = pathlib.Path(folder)
    (root / "crates/tiny/src").mkdir(parents=True)
    (root / "crates.txt").write_text("tiny:\n")
    (root / "crates/tiny/src/main.rt").write_text(TINY)
    program = root / "tiny"
    with open(root / "log", "w", encoding="utf-8") as log:
        unproved.Build(root, "tiny", lambda text: None, log).program(program)
    ran = run([program, *"1234"], root)
    expect((ran.status, ran.output) == (0, "255\n"), f"with four words: {ran}")
    ran = run([program, *"12345"], root)
    expect(ran.status < 0 and ran.output == "", f"a sum that wraps goes on: {ran}")


def case_overflow(folder):
    """An overflow that is planted in m36 stops the unproved build of it."""
    copy = copy_of(folder, ("crates", "examples", "tools"))
    name, old, new = OVERFLOW
    text = (copy / name).read_text()
    expect(text.count(old) == 1, f"{name} has {old!r} {text.count(old)} times")
    (copy / name).write_text(text.replace(old, new))
    ran = run([copy / "m36", "bare", "least"], copy / "examples/least", M36_QUIET="1")
    expect(ran.status in (132, -4) and ran.output in ("", "audit yes\n"), f"{ran}")
    ran = run([copy / "m36", "audit", "least"], copy / "examples/least", M36_QUIET="1")
    expect((ran.status, ran.output) == (0, "audit yes\n"), f"what writes no ring: {ran}")


CASES = (case_checks, case_traps)
# These build the program once more, and are not part of `.ci/run`.
PLANTED_CASES = (case_overflow,)
