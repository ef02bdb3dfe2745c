"""Tests of what is said of each status, and of how a run ended."""

import os
import pathlib
import shutil
import tempfile

from speak_tests.answering import ROOT, plain, sentences
from speak_tests.passing import stub

# What is wrong with the image overlap, by its own page.
OVERLAP = ["A4", "two words of segments are on one core word"]
# By the name of the status: the words, the example that is copied, and what must be said.
EXAMPLES = {
    "Steps": (["bare", "least", "--steps=1"], "least/least", ["took all the steps", "--steps N"]),
    "AuditNo": (["audit", "overlap"], "overlap/overlap", ["audit fails", *OVERLAP]),
    "MachineStop": (
        ["bare", "unprivileged"],
        "least/unprivileged/unprivileged",
        ["a fault or a stop other than DIS"],
    ),
}
# What a status line alone leads to, whatever the program was asked.
ALONE = {
    "ReadFault": (2, ["could not be read"]),
    "WriteFault": (3, ["could not be written", "full disk"]),
    "NoMemory": (8, ["memory ran out"]),
}


def said_of(done, name, parts):
    """What an answer lacks that must be said of a status."""
    said = done.stderr.decode("utf-8", "replace")
    answer = sentences(said, name)
    lacks = [part for part in parts if part not in plain(answer)]
    first = said.startswith(f"m36: {name}\n")
    return [] if first and not lacks else [f"{name} lacks {lacks}: {said!r}"]


def runs_end_in_words(tried):
    """A run that met its limit, that a fault ended, and an audit that fails have a sentence."""
    wrong = []
    for name, (words, example, parts) in EXAMPLES.items():
        with tempfile.TemporaryDirectory() as folder:
            shutil.copy(ROOT / "examples" / example, folder)
            wrong += said_of(tried.spoken(words, folder), name, parts)
    return wrong


def statuses_end_in_words(_tried):
    """The other statuses have a sentence too."""
    wrong = []
    with tempfile.TemporaryDirectory() as folder:
        for name, (status, parts) in ALONE.items():
            tried = stub(folder, f"echo m36: {name} >&2; exit {status}")
            wrong += said_of(tried.spoken(["run"], folder), name, parts)
    return wrong


def the_file_is_named(tried):
    """A folder in place of a file that is read, or written, is named."""
    wrong = []
    with tempfile.TemporaryDirectory() as folder:
        place = pathlib.Path(folder)
        (place / "in.alm").mkdir()
        (place / "out").mkdir()
        (place / "out.alm").write_text(" nop 0\n")
        wrong += said_of(tried.spoken(["alm", "in"], folder), "ReadFault", ['"in.alm" is a folder'])
        wrong += said_of(tried.spoken(["alm", "out"], folder), "WriteFault", ['"out" is a folder'])
    return wrong


def a_denied_start_is_said(tried):
    """A start that the access lists deny: the user, the mode and the term that decides."""
    wrong = []
    parts = ['"Jones.Demo.a"', 'the mode "null"', '"Jones.Demo.*"', "one with e"]
    others = ['"Ann.Other.a"', 'the mode "null"', "no term matches", "one with e"]
    with tempfile.TemporaryDirectory() as folder:
        for name in ("acl", "boot", "main.alm", "con_.alm"):
            shutil.copy(ROOT / "examples/lists" / name, folder)
        for name in ("main", "con_"):
            tried.directly(["alm", name], folder)
        for words, wanted in (["--user", "Jones.Demo.a"], parts), (["--user=Ann.Other.a"], others):
            said = tried.spoken(["run", *words], folder).stderr.decode()
            answer = sentences(said, "U3")
            wrong += [f"lacks {p}: {said}" for p in wanted if p not in plain(answer)]
    return wrong


def a_stale_object_is_named(tried):
    """Before a run the object is named that is not of its source, and no other, whatever the times
    are."""
    with tempfile.TemporaryDirectory() as folder:
        for name in ("boot", "main.alm", "con_.alm"):
            shutil.copy(ROOT / "examples/hello" / name, folder)
        for name in ("main", "con_"):
            tried.directly(["alm", name], folder)
        source = pathlib.Path(folder, "main.alm")
        os.utime(source, (2**31, 2**31))
        current = tried.spoken(["run"], folder)
        source.write_bytes(source.read_bytes() + b" nop 0\n")
        os.utime(source, (1, 1))
        stale = tried.spoken(["run"], folder)
    said = plain(stale.stderr.decode())
    start = 'stale: the source was changed after it was assembled to "main"'
    right = not current.stderr and said.startswith(start)
    right &= "con_" not in said and (stale.returncode, stale.stdout) == (0, current.stdout)
    return [] if right else [f"{current} / {stale}"]


TESTS = (
    a_stale_object_is_named,
    a_denied_start_is_said,
    runs_end_in_words,
    statuses_end_in_words,
    the_file_is_named,
)
