"""Cases of ./prove, with a stand-in for rt."""

import os
import signal
import subprocess
import time

from building import proving

from .fixture import (KIT, PROVED, copy_of, expect, path_with, processes_of, run,
                      wait_until)

REFUSES = ("printf '== m36_word\\nlogic=proved\\n== m36_text\\nsrc/lib.rt:1:2: error: no\\n"
           "logic=not-proved\\n'; sleep 600")


def case_refused(folder):
    """A crate that is not proved is named, with the log, and the rest is ended."""
    copy = copy_of(folder, ("crates", "tools"))
    ran = run([copy / "prove"], copy, PATH=path_with(folder, KIT, REFUSES))
    expect(ran.status == 1 and "prove: m36_text is not proved" in ran.errors, f"{ran}")
    expect("src/lib.rt:1:2: error: no" in ran.errors and "out/m36.log" in ran.errors, f"{ran}")
    expect("m36_word is proved (1 of" in ran.errors, f"{ran}")
    expect(not processes_of("sleep 600"), "the rest goes on")
    expect(run([copy / "tools/is-current"], copy).status == 1, "it counts as proved")


def case_does_not_compile(folder):
    """A crate that does not compile is named, with the place; one that was proved before is not."""
    copy = copy_of(folder, ("crates", "tools"))
    does = ("printf '== m36_word\\nrt: m36_word: begins with what is kept\\n== m36_text\\n"
            "src/lib.rt:3:4: error[unknown-method]: no method\\n"
            "== summary\\nm36_text: failed (1)\\n'; exit 1")
    ran = run([copy / "prove"], copy, PATH=path_with(folder, KIT, does))
    expect(ran.status == 1 and "prove: m36_text is not proved" in ran.errors, f"{ran}")
    expect("m36_text is proved" not in ran.errors and "m36_word is proved" in ran.errors, f"{ran}")
    expect("src/lib.rt:3:4: error[unknown-method]" in ran.errors, f"{ran}")


def case_in_turn(folder):
    """With one at a time each crate is proved by a command of its own, lowest first."""
    copy = copy_of(folder, ("crates", "tools"))
    (copy / "crates.txt").write_text("m36_text: m36_word\nm36_word:\nm36: m36_text\n")
    ran = run([copy / "prove", "--jobs", "1"], copy, PATH=path_with(folder, KIT))
    expect(ran.status == 1 and "m36_word is not proved" in ran.errors, f"an rt without lib: {ran}")
    path = path_with(folder, KIT, "exit 9 ;;\n    lib | check) echo logic=proved; "
                     "basename $PWD >> ../../order")
    ran = run([copy / "prove", "--jobs", "1"], copy, PATH=path)
    expect(ran.status == 0 and "m36 is proved (3 of 3)" in ran.errors, f"{ran}")
    order = (copy / "order").read_text().split()
    expect(order == ["m36_word", "m36_text", "m36"], f"the order is {order}")


def case_not_built(folder):
    """A program that is not built is no success, nor is an rt that fails."""
    copy = copy_of(folder, ("crates", "tools"))
    path = path_with(folder, KIT, PROVED, "echo no; exit 1")
    ran = run([copy / "prove"], copy, PATH=path)
    expect(ran.status == 1 and "the program was not built" in ran.errors, f"{ran}")
    does = "printf '== summary\\nm36_top: failed (2)\\n'; exit 2"
    ran = run([copy / "prove"], copy, PATH=path_with(folder, KIT, does))
    expect(ran.status == 1 and "m36_top is not proved: rt ended with status 2" in ran.errors,
           f"{ran}")


def case_changed_meanwhile(folder):
    """A source that is changed while it is proved is not proved."""
    copy = copy_of(folder, ("crates", "tools"))
    changes = f"echo >> ../m36_word/src/half.rt; {PROVED}"
    ran = run([copy / "prove"], copy, PATH=path_with(folder, KIT, changes))
    expect(ran.status == 1 and "a source was changed meanwhile" in ran.errors, f"{ran}")
    expect(run([copy / "tools/is-current"], copy).status == 1, "it counts as proved")


def case_progress(folder):
    """A line comes at least every 10 seconds, and an interruption leaves nothing running."""
    copy = copy_of(folder, ("crates", "tools"))
    path = path_with(folder, KIT, "sleep 601 --crate-name m36_word & sleep 601")
    with subprocess.Popen([copy / "prove"], cwd=copy, stderr=subprocess.PIPE, text=True,
                          env={**os.environ, "PATH": path}) as ran:
        last, longest, until = time.monotonic(), 0.0, time.monotonic() + 13
        while time.monotonic() < until:
            line = ran.stderr.readline()
            longest, last = max(longest, time.monotonic() - last), time.monotonic()
            expect(line.startswith("prove: "), f"a line of progress: {line!r}")
        expect(longest < 10, f"nothing was said for {longest:.1f} seconds")
        expect("0 of " in line and "taken, about" in line and "left" in line, f"{line!r}")
        ran.send_signal(signal.SIGTERM)
        said = ran.stderr.read()
        expect(ran.wait(10) == 128 + signal.SIGTERM, f"its status is {ran.returncode}")
        expect("interrupted" in said, f"it ends with {said!r}")
    wait_until(lambda: not processes_of("sleep 601"), 5, "its processes still run")


def case_estimate(_folder):
    """The time that is left follows from the crates that are left, and from those that wait."""
    known = {"low": [], "left": ["low"], "right": ["low"], "top": ["left", "right"]}
    estimate = object.__new__(proving.Estimate)
    estimate.lanes = 2
    estimate.below = {"low": set(), "left": {"low"}, "right": {"low"},
                      "top": {"low", "left", "right"}}
    estimate.order, estimate.lines = list(known), dict.fromkeys(known, 1000)
    estimate.measured = [(100.0, 1000)]
    each, build = 100.0 + proving.OF_EACH, proving.OF_BUILD
    left = estimate.left([], {})
    expect(left == proving.OF_PASS + 3 * each + build, f"from nothing {left}")
    expect(estimate.left([], {"low": 0.0}) == 3 * each + build, "when the first is begun")
    expect(estimate.left(["low"], {}) == 2 * each + build, "with one of four done")
    expect(estimate.left(["low", "left"], {"right": 50.0}) == 2 * each - 50 + build, "half way")
    expect(estimate.left(list(known), {}) == build, "all done")
    estimate.lanes = 1
    expect(estimate.left(["low"], {}) == 3 * each + build, "on one processor")


CASES = (case_refused, case_does_not_compile, case_in_turn, case_not_built,
         case_changed_meanwhile, case_progress, case_estimate)
