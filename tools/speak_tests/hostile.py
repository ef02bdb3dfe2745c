"""Tests with files and program output that were made to do harm."""

import os
import pathlib
import random
import re
import tempfile
import time

from m36lib.refusals import refusal_in_words
from m36lib.speech import end_lines
from speak_tests.passing import stub

CODES = [f"{letter}{n}" for letter in "BCDEFIOPSTU" for n in range(1, 9)] + ["Z9", "A1"]
# Those whose finders look at much of the file.
WIDE_CODES = "E1 E2 E3 E4 E5 E6 E7 E8 D1 D2 D3 D4 C1 C2 I1 I3 P1 P2 B1 B3 O3 U2 U3".split()
OBEYED = re.compile("[\x00-\x08\x0b-\x1f\x7f-\x9f\u200e\u200f\u202a-\u202e\u2066-\u2069]")
MOST = 4000
# How much processor time the words about a file may take.
PROCESSOR_SECONDS = 5

FILES = {
    "controls": b"\x1b[2J\x1b]0;x\x07 lda \x9b2J,\xc2\x9b2J\r\x00\x7f\n" * 3,
    "turned": " lda \u202ex\u202c,qq\u2066\n".encode(),
    "long line": b" lda " + b"x" * 1_000_000 + b"\n",
    "many lines": b"a: nop 0\n" * 200_000,
    "no end": b" lda 1,zz",
    "empty": b"",
    "bytes": bytes(range(256)) * 40,
    "blanks": b" " * 100_000 + b"\n",
    "colons": b":" * 100_000 + b"\n",
    "commas": b" entry " + b"," * 100_000 + b"\n",
    "signs": b" lda " + b"+" * 100_000 + b"\n",
    "digits": b"frames " + b"9" * 100_000 + b"\n" + b"core " + b"9" * 100_000 + b"\n",
    "at": b"core 1\ndbr 0 0\nstart 0 0 0\nat " + b"7" * 5000 + b" 0\n",
}

PLACES = (
    "gone E2 1 1",
    "d E2 1 1",
    "p E2 1 1",
    "f E2 0 0",
    "f E7 99 99",
    "f O3 9 0",
    f"f E2 {'9' * 40} {'9' * 40}",
    "../../etc/passwd E2 1 1",
    "f D3 1 0",
    "f Z9 1 1",
)
OUTPUTS = (
    b"",
    b"x",
    b"m36: BadFile",
    b"m36: Usage",
    b"m36: BadFile a b c d\n",
    b"\xff\x00\x1b[2J" * 1000,
    b"m36: line\n" * 300_000,
    b"x" * 3_000_000,
)
LINES = (
    b"segment >u a a object re 4 4 4",
    b"frames 24",
    b"work >u",
    b"start 4 a$b",
    b"name b",
    b"core 1",
    b"turns 1 0",
    b"at 0 0",
    b"term *.*.* r",
    b"object a",
    b" lda x,qqq",
    b"a: equ b,*",
    b" entry a,,",
    b" aci /",
    b" use link",
    b" bss a,9",
    b"\x1b",
    b"\xff",
    b"",
)


def files_do_no_harm(_tried):
    """Whatever a file has: the program's line, its status, little text, and nothing obeyed."""
    wrong = []
    with tempfile.TemporaryDirectory() as folder:
        for what, data in FILES.items():
            pathlib.Path(folder, "f").write_bytes(data)
            line = "m36: BadFile f E2 1 6"
            done = stub(folder, f"echo '{line}' >&2; exit 4").spoken([], folder)
            said = done.stderr.decode("utf-8", "replace")
            right = done.returncode == 4 and said.startswith(line + "\n") and is_harmless(said)
            wrong += [f"{what}: {said[:300]!r}"] * (not right)
            wrong += [f"{what}, {text}" for text in harmful(folder)]
    return wrong


def is_harmless(said):
    """Whether what is said is short, and nothing in it is obeyed by a terminal."""
    return len(said) < MOST and not OBEYED.search(said)


def harmful(folder):
    """The codes for which the words about the file `f` are not harmless, or take too long."""
    found, start = [], os.getcwd()
    os.chdir(folder)
    try:
        for code in WIDE_CODES:
            begun = time.process_time()
            said = "\n".join(end_lines(f"m36: BadFile f {code} 1 6".encode(), "m36", [], 4))
            took = time.process_time() - begun
            if not said or not is_harmless(said) or took > PROCESSOR_SECONDS:
                found.append(f"{code}: {said[:300]!r}")
    finally:
        os.chdir(start)
    return found


def places_do_no_harm(_tried):
    """A file that is gone, a folder, a FIFO, a line or a column that there is not."""
    wrong = []
    with tempfile.TemporaryDirectory() as folder:
        pathlib.Path(folder, "f").write_text(" lda 1\n")
        pathlib.Path(folder, "d").mkdir()
        os.mkfifo(pathlib.Path(folder, "p"))
        for place in PLACES:
            line = f"m36: BadFile {place}"
            done = stub(folder, f"echo '{line}' >&2; exit 4").spoken([], folder)
            right = done.returncode == 4 and done.stderr.startswith(line.encode() + b"\n")
            wrong += [f"{place}: {done}"] * (not right or b"Traceback" in done.stderr)
    return wrong


def output_does_no_harm(_tried):
    """Standard error of any bytes and any length comes through unchanged."""
    wrong = []
    with tempfile.TemporaryDirectory() as folder:
        for data in OUTPUTS:
            pathlib.Path(folder, "said").write_bytes(data)
            done = stub(folder, "cat said >&2; exit 0").spoken([], folder)
            right = done.returncode == 0 and done.stderr == data
            wrong += [f"{data[:20]!r}: {done.stderr[:100]!r}"] * (not right)
    return wrong


def any_place_of_any_text_is_survived(_tried):
    """Codes, lines and columns by chance in texts by chance: an answer, and nothing obeyed."""
    chance = random.Random(36)
    wrong = []
    start = os.getcwd()
    with tempfile.TemporaryDirectory() as folder:
        os.chdir(folder)
        try:
            for _ in range(1000):
                lines = [LINES[chance.randrange(len(LINES))] for _ in range(chance.randrange(6))]
                pathlib.Path("f").write_bytes(b"\n".join(lines) + b"\n" * chance.randrange(2))
                code, line = CODES[chance.randrange(len(CODES))], chance.randrange(8)
                status = f"m36: BadFile f {code} {line} {chance.randrange(12)}"
                answer = "\n".join(end_lines(status.encode(), "m36", [], 4))
                if not refusal_in_words(status) or OBEYED.search(answer):
                    wrong.append(f"{status} of {lines}: {answer!r}")
        finally:
            os.chdir(start)
    return wrong


TESTS = (
    files_do_no_harm,
    places_do_no_harm,
    output_does_no_harm,
    any_place_of_any_text_is_survived,
)
