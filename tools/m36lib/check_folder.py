"""Checks of what is read of folders: disassembly, names, sources, the end of a run in words, stale
objects, and the table of instructions."""

import os
import subprocess

from . import cases, make_table
from .account_of_end import end_in_words, stale_objects
from .disassemble import disassemble
from .folder import Folder, FolderNames, Sources
from .made_folders import FOLDERS
from .recorder import Recorder

# The ends of examples as the guide has them, worked out by hand: the example, the words of the
# run, and a part of each sentence in order.
ENDS = (
    (
        "servant",
        ["trace"],
        (
            "Step 14: ring 1 executes lda pr2|0,* at gate_|1 (gate_.alm, line 4).",
            "PR2 with the offset 0 points to main$start+12, in ring 4: the ring is the greater of "
            "1, which executes, and 4 in PR2.",
            "points to secret|0, in ring 4: the ring is the greatest of 4 so far, 0 in the pair, "
            "and R1 = 4 of the segment that holds the pair.",
            "May ring 4 read secret|0? No, access violation 3: ring 4 is above R2 = 1. "
            "(docs/MANUAL.md, section 6)",
            "after 14 steps: fault 20.3, access violation 3.",
        ),
    ),
    ("hello", ["run"], ()),
    ("hello", ["run", "--steps", "3"], ()),
    (
        "direct",
        ["run", "--unaudited"],
        (
            "Step 1: ring 4 executes lda pr4|8,* at main$start (main.alm, line 2).",
            "points to linkage_4|2010, in ring 4",
            "has the tag 46, which is a fault tag. A link has it until it is snapped.",
            "refuses the link secret$ at linkage_4|2010 with the code L4.",
            "Ring 4 is above R3 = 1 of secret.",
            "after 1 step: link L4.",
        ),
    ),
    (
        "segments",
        ["bare", "segments"],
        (
            "Step 2: ring 0 executes lda 6,* at 00001|1.",
            "points to 00002|20, in ring 0",
            "No, access violation 15: word 20 is past the bound, and the last word is 17. "
            "(docs/MANUAL.md, section 5)",
            "fault 20.15, access violation 15.",
        ),
    ),
    ("lists", ["run", "--user", "Smith.Demo.a"], ()),
    ("least", ["bare", "least"], ()),
    ("servant", ["trace", "--steps", "13"], ()),
    ("servant", ["audit"], ()),
)


def appear_in_order(parts, sentences):
    """The parts are in sentences in this order; where there are none, there are no sentences."""
    if not parts:
        return not sentences
    rest = iter(sentences)
    return all(any(part in text for text in rest) for part in parts)


def check_ends(program, top):
    for name, words, parts in ENDS:
        found = end_in_words(program, words, top / name)
        if not appear_in_order(parts, found):
            yield f"the end of {name} {' '.join(words)} is {found}"


def check_made(program, work):
    """The ends of the made folders."""
    for made, case in zip(FOLDERS, cases.folder_cases(program, work)):
        yield from check_disassembly(program, case.folder)
        found = end_in_words(program, ["run", "--unaudited"], case.folder)
        if not appear_in_order(made.end, found):
            yield f"the end of {case.name} is {found}"


USER_LISTS = """segment >udd>demo main
term *.*.* e
segment >sss gate_
term *.*.* re
segment >sss secret
term *.*.* rw
"""


def check_user(program, top):
    """The rights of a user count: one who may not read main is refused where the gate reads it."""
    folder = top / "servant"
    (folder / "acl").write_text(USER_LISTS)
    found = end_in_words(program, ["run", "--user", "Ann.Demo.a"], folder)
    parts = ("Step 8: ring 1", "access violation 4: R is off", "fault 20.4, access")
    if not appear_in_order(parts, found):
        yield f"the end for a user is {found}"
    (folder / "acl").unlink()


def check_disassembly(program, folder):
    """Each word of a print, disassembled, is as the print has it."""
    looked = 0
    for segment in Folder(folder).boot.segments:
        done = subprocess.run([program, "print", segment.file], cwd=folder, capture_output=True)
        for line in done.stdout.decode("ascii").splitlines():
            place, _, rest = line.partition(" ")
            word, _, text = rest.partition(" ")
            if len(place) == 6 and len(word) == 12:
                looked += 1
                if disassemble(int(word, 8)) != text:
                    yield f"{segment.file}: {line}: {disassemble(int(word, 8))}"
    if not looked:
        yield f"{folder}: nothing to disassemble"


def check_names(program, top):
    folder = Folder(top / "servant")
    names, sources = FolderNames(program, folder), Sources(program, folder)
    pairs = (
        (names.word(0o101, 0), "gate_$fetch"),
        (names.word(0o101, 1), "gate_|1"),
        (names.word(0o100, 1), "main$start+1"),
        (names.word(0o102, 0o12), "secret|12"),
        (names.word(0o14, 0o100), "stack_4|100"),
        (names.word(0o24, 0o2010), "linkage_4|2010"),
        (names.word(0o7, 5), "00007|5"),
        (sources.line(0o101, 1), ("gate_.alm", 4)),
        (sources.line(0o101, 0o40), (None, None)),
    )
    for found, expected in pairs:
        if found != expected:
            yield f"{found} for {expected}"


def check_stale(program, top):
    """A source that is changed, and one that does not assemble, are reported, and nothing else."""
    folder = top / "servant"
    if stale_objects(program, folder):
        yield "an object is called stale that is not"
    source = folder / "gate_.alm"
    text = source.read_text()
    os.utime(folder / "gate_", (1, 1))
    if stale_objects(program, folder):
        yield "an object that is older and the same is called stale"
    for changed, part in ((text.replace("lda", "ldq"), "gate_ is not what gate_.alm assembles to"),
                          (text + "        fly\n", "gate_.alm does not assemble")):
        source.write_text(changed)
        found = stale_objects(program, folder)
        if len(found) != 1 or part not in found[0]:
            yield f"a stale object is {found}"
        with Recorder(program, folder) as recorder:
            if len(recorder.header.notes) != 1:
                yield f"a stale object gives the notes {recorder.header.notes}"
    source.write_text(text)


def check_table():
    """table.py is what is made of the program's table."""
    text = make_table.table_text(cases.ROOT / "crates/m36_inst")
    if text != (make_table.HERE / "table.py").read_text():
        yield "table.py is not what make_table.py writes"


def check_folder(program, work, show=print):
    """The number of things that are not as they should be."""
    list(cases.examples(program, work))
    top = work / "examples"
    wrong = [*check_table(), *check_ends(program, top), *check_names(program, top)]
    wrong += check_user(program, top)
    wrong += check_made(program, work)
    for folder in ("servant", "hello", "pages", "search", "borrowed"):
        wrong += check_disassembly(program, top / folder)
    wrong += check_stale(program, top)
    for line in wrong:
        show(line)
    show(f"folders: {len(ENDS) + len(FOLDERS)} ends in words, {len(wrong)} things wrong")
    return len(wrong)
