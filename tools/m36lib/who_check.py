"""Checks of tools/who: against tables that were worked out by hand, and against what the machine
does when each ring tries each segment."""

import concurrent.futures
import os
import pathlib
import random
import shutil
import subprocess
import tempfile
import xml.etree.ElementTree as ElementTree

from .made_images import its
from .who_facts import RINGS, facts
from .who_picture import as_picture

TOP = pathlib.Path(__file__).resolve().parents[2]
WHO = TOP / "tools/who"

# By the brackets and modes of the boot texts and docs/MANUAL.md, section 6.
SERVANT = """
00100 main object re 4 4 4 r--- r--- r--- r--- r-e- ---- ---- ----
00101 gate_ gate re 1 1 5 r--- r-e- ---c ---c ---c ---c ---- ----
00102 secret data rw 1 1 1 rw-- rw-- ---- ---- ---- ---- ---- ----
gate_: rings 2 to 5 may call the entry fetch (0), and then ring 1 executes.
audit yes
"""
# By the lists of docs/ACCESS.md, which the example has.
LISTS = """
con_: rings 1 to 5 may call the entries write (0), stop (1), and then ring 0 executes.
segment Jones.Demo.* *.Demo.* *.*.*
main null re null
con_ re re re
"""
JONES = """
lists: who may touch what for Jones.Demo.a
00100 main object null 4 4 4 ---- ---- ---- ---- ---- ---- ---- ---- Jones.Demo.*
00101 con_ gate rep 0 0 5 r-e- ---c ---c ---c ---c ---c ---- ---- *.*.*
it does not start for Jones.Demo.a: m36: BadFile boot U3 0 0
"""
USER = "Ann.Demo.a"
TABLES = (
    ("servant", [], SERVANT),
    ("lists", [], LISTS),
    ("lists", ["--user", "Jones.Demo.a"], JONES),
)
MODES = {"object": ("e", "re", "rew", "rep"), "gate": ("e", "re", "rep"), "data": ("r", "rw", "w")}
STOP = " entry stop\nstop: dis 0\n entrybound\n"
TRIES = {"r": "lda", "w": "sta", "e": "tra", "c": "call6"}
FIRST = 0o100


def run_who(program, *words):
    environment = {**os.environ, "M36_PROGRAM": program}
    return subprocess.run([WHO, *words], capture_output=True, env=environment)


def assembled(program, name, work):
    """A copy of an example, assembled."""
    folder = work / name
    if not folder.exists():
        shutil.copytree(TOP / "examples" / name, folder)
        for source in folder.glob("*.alm"):
            subprocess.run([program, "alm", source.stem], cwd=folder, capture_output=True)
    return folder


def check_tables(program, work):
    for name, words, expected in TABLES:
        done = run_who(program, assembled(program, name, work), *words)
        lines = done.stdout.decode().splitlines()
        found = {" ".join(line.split()) for line in lines}
        for line in expected.strip().splitlines():
            if line not in found:
                yield f"who {name} {' '.join(words)}: no line {line!r}"


# Each ring tries each segment.


def draw_segments(draw, count=14):
    """Segment lines with random brackets and modes, and at the end the segment that tries."""
    for number in range(count):
        kind = draw.choice(tuple(MODES))
        rings = sorted(draw.choice(RINGS) for _ in range(3))
        if kind == "gate" and rings[1] == rings[2]:
            kind = "object"
        mode = draw.choice(MODES[kind])
        yield f"segment >u s{number} {kind} {kind} {mode} {' '.join(map(str, rings))}"
    yield "segment >u try_ try_ object re 0 7 7"


def tries_source(count):
    """A source with an entry for each segment and each way to touch it."""
    lines, pairs = [" even"], []
    for number in range(count):
        even, odd = its(FIRST + number, 0)
        pairs.append(f"p{number}: oct {even:o},{odd:o}")
        for letter, name in TRIES.items():
            lines.append(f"{letter}{number}: {name} p{number},*")
    entries = [f" entry {letter}{number}" for number in range(count) for letter in TRIES]
    return "\n".join([*entries, *pairs, *lines]) + "\n"


def draw_lists(draw, count):
    """Access lists with random modes for the user; he may execute the segment that tries."""
    for number in range(count):
        mode = draw.choice(("null", "r", "e", "w", "re", "rw", "ew", "rew"))
        yield f"segment >u s{number}\nterm *.Demo.* {mode}"
    yield "segment >u try_\nterm *.*.* re\n"


def try_ring(program, folder, lines, ring, words):
    """What a ring meets with each try of each segment: whether it goes on, and in which ring."""
    outcomes = {}
    with tempfile.TemporaryDirectory() as room:
        copy = pathlib.Path(room) / "copy"
        shutil.copytree(folder, copy)
        for number in range(len(lines) - 1):
            for letter in TRIES:
                start = f"start {ring} try_${letter}{number}"
                text = "\n".join(["frames 24", "work >u", *lines, start]) + "\n"
                (copy / "boot").write_text(text)
                trace = [program, "trace", "--unaudited", "--steps", "2", *words]
                done = subprocess.run(trace, cwd=copy, capture_output=True)
                found = [line for line in done.stdout.decode().splitlines() if line[0].isdigit()]
                after = int(found[1].split(" ")[1]) if len(found) > 1 else None
                outcomes[number, letter] = found[0].split(" ", 8)[8] == "next", after
    return outcomes


def drawn_folder(program, folder, lines, lists):
    folder.mkdir()
    (folder / "gate.alm").write_text(STOP)
    (folder / "object.alm").write_text(STOP)
    (folder / "try_.alm").write_text(tries_source(len(lines) - 1))
    (folder / "data").write_bytes(bytes(9))
    (folder / "acl").write_text("\n".join(lists))
    text = "\n".join(["frames 24", "work >u", *lines, "start 0 try_$r0"]) + "\n"
    (folder / "boot").write_text(text)
    for name in ("gate", "object", "try_"):
        subprocess.run([program, "alm", name], cwd=folder, check=True, capture_output=True)


def check_by_machine(program, work, user=None):
    """The table of a drawn folder is what the machine does."""
    folder = work / f"drawn{user or ''}"
    draw = random.Random(1)
    lines = list(draw_segments(draw))
    drawn_folder(program, folder, lines, list(draw_lists(draw, len(lines) - 1)))
    rows = facts(program, folder, user).rows
    words = ["--user", user] if user else []
    with concurrent.futures.ThreadPoolExecutor(os.cpu_count()) as pool:
        runs = list(
            pool.map(lambda ring: try_ring(program, folder, lines, ring, words), RINGS)
        )
    for ring, outcomes in zip(RINGS, runs):
        for (number, letter), (allowed, after) in outcomes.items():
            cell, row = rows[number].cells[ring], rows[number]
            said = {"r": cell.read, "w": cell.write, "e": cell.execute, "c": cell.call}[letter]
            if letter == "c" and ring <= row.brackets[1]:
                continue
            if said != allowed or (letter == "c" and allowed and after != cell.falls_to):
                yield f"{lines[number]}: ring {ring}, {letter}: the machine does otherwise"


def check_user_by_machine(program, work):
    return check_by_machine(program, work, USER)


# Names, sizes and refusals.


def is_xml(text):
    try:
        ElementTree.fromstring(text)
    except ElementTree.ParseError:
        return False
    return True


def check_hostile(program, work):
    """A folder with a hostile name, and one of 512 segments: the picture is well formed."""
    folder = work / '<script>"&\x01'
    shutil.copytree(assembled(program, "servant", work), folder)
    text = as_picture(facts(program, folder))
    if "<script" in text or "\x01" in text or not is_xml(text):
        yield "a hostile name is in the picture as it is"
    many = work / "many"
    shutil.copytree(assembled(program, "servant", work), many)
    lines = [f"segment >u s{number} secret data rw 4 4 4" for number in range(511)]
    main = "segment >u main main object re 4 4 4"
    text = "\n".join(["frames 24", "work >u", main, *lines, "start 4 main$start"]) + "\n"
    (many / "boot").write_text(text)
    found = facts(program, many)
    if len(found.rows) != 512 or not is_xml(as_picture(found)):
        yield f"{len(found.rows)} of 512 segments"


def check_refusals(program, work):
    folder = work / "refused"
    folder.mkdir()
    (folder / "boot").write_text("frames 1\n")
    good = assembled(program, "servant", work)
    cases = (
        ([folder], 4, b"m36: BadFile boot D6 2 0\n"),
        ([good, "--user", "Smith"], 1, b"m36: Usage"),
        ([good, "--user", "Smith.Demo.a"], 4, b"m36: BadFile acl F1 0 0\n"),
        ([good, "-o", work / "none/x.svg"], 3, b"who: "),
        ([work / "none"], 2, b"usage: "),
    )
    for words, status, said in cases:
        done = run_who(program, *words)
        if done.returncode != status or not done.stderr.startswith(said):
            yield f"who {words[1:]}: status {done.returncode}, {done.stderr[:80]!r}"


CHECKS = (
    check_tables, check_by_machine, check_user_by_machine, check_hostile, check_refusals,
)


def check(program):
    """Makes all checks, and prints what is wrong. The number of things."""
    wrong = []
    with tempfile.TemporaryDirectory() as work:
        for one in CHECKS:
            wrong += one(program, pathlib.Path(work))
    for line in wrong:
        print(line)
    print(f"who: {len(CHECKS)} checks, {len(wrong)} things wrong")
    return len(wrong)
