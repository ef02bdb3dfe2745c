"""Folders for rules that the examples don't reach: name, boot text, source of main, and a part of
each sentence about the end of its run, in order. Each has a file `data` of 20 words."""

from typing import NamedTuple

from .table import TABLE

WORDS_OF_DATA = 20
BOOT = """frames 24
work >u
segment >u main main object {main}
segment >u data data data {data}
start {ring} main$start
"""


class MadeFolder(NamedTuple):
    name: str
    boot: str
    source: str
    end: tuple


def boot(main, data, ring):
    return BOOT.format(main=main, data=data, ring=ring)


RIGHTS = MadeFolder(
    "rights and a bound",
    boot("e 4 4 4", "rw 4 4 4", 4),
    """        entry   start
start:  lda     data$+17
        sta     data$+18
        lda     data$+32
""",
    (
        "Step 6: ring 4 executes lda pr4|12,* at main$start+2 (main.alm, line 4).",
        "access violation 15: word 40 is past the bound, and the last word is 37.",
        "fault 20.15, access violation 15.",
    ),
)
LOADED = MadeFolder(
    "ABSA and LDBR",
    boot("rewp 0 0 0", "rw 4 4 4", 0),
    """        entry   start
start:  absa    0,ic
        lda     data$
        ldbr    dbr
        lda     cell
        sta     cell
        lda     data$+3
        lda     2000
        even
dbr:    oct     0,000376200001
cell:   dec     0
        bss     more,3000
""",
    ("at main$start+5", "has the tag 46", "fault 24, fault tag 2."),
)
ABSENT = MadeFolder(
    "a page in no frame after LDBR",
    boot("rewp 0 0 0", "rw 4 4 4", 0),
    """        entry   start
start:  ldbr    dbr
        lda     2000
        even
dbr:    oct     0,000376200001
        bss     more,3000
""",
    (
        "Step 2: ring 0 executes lda 2000",
        "directed fault 1: the page table word of its page 1 has F off and names directed fault 1.",
        "fault 17, directed fault 1.",
    ),
)
TOO_MUCH = MadeFolder(
    "a console that is asked for too much",
    boot("re 0 0 0", "rw 4 4 4", 0),
    """        entry   start
start:  epp2    text
        lda     257,dl
        mme     0
        bss     text,65
""",
    ("MME gives its fault", "asked for 257 characters, and writes at most 256.", "console."),
)
UNREAD = MadeFolder(
    "a console that may not read",
    boot("re 0 0 0", "w 4 4 4", 0),
    """        entry   start
start:  epp2    data$+7
        lda     5,dl
        mme     0
""",
    (
        "MME gives its fault",
        "The console reads in the ring of PR2. May ring 0 read data|7? No, access violation 4: R "
        "is off.",
        "fault 20.4, access violation 4.",
    ),
)
STRANGE = MadeFolder(
    "characters that are no text",
    boot("re 0 0 0", "rw 4 4 4", 0),
    """        entry   start
start:  epp2    text
        lda     7,dl
        mme     0
        drl     0
text:   oct     101040134000,200377177012
""",
    ("Step 4: ring 0 executes drl 0", "DRL gives its fault.", "fault 6, DRL."),
)

MOST = MadeFolder(
    "a console that writes as much as it may",
    boot("re 0 0 0", "rw 4 4 4", 0),
    """        entry   start
start:  epp2    text
        lda     256,dl
        mme     0
        drl     0
        bss     text,64
""",
    ("Step 4: ring 0 executes drl 0", "DRL gives its fault.", "fault 6, DRL."),
)
OUTER = MadeFolder(
    "a console that reads in an outer ring",
    boot("re 0 0 0", "rw 0 0 0", 0),
    """        entry   start
start:  epp2    pair,*
        lda     5,dl
        mme     0
        even
pair:   oct     000101400043,0
""",
    ("May ring 4 read data|0? No, access violation 3: ring 4 is above R2 = 0.", "fault 20.3"),
)
MASTER = MadeFolder(
    "MME in an outer ring",
    boot("re 4 4 4", "rw 4 4 4", 4),
    """        entry   start
start:  mme     0
""",
    ("Step 1: ring 4 executes mme 0", "MME gives its fault.", "fault 2, MME."),
)
REFUSED_STEP = MadeFolder(
    "an indirect word beyond the bound",
    boot("re 4 4 4", "rw 4 4 4", 4),
    """        entry   start
start:  lda     pair,*
        even
pair:   oct     000101400043,000040000020
""",
    ("May ring 4 read data|40? No, access violation 15: word 40 is past the bound, and the last "
     "word is 37. This is step 3 of finding the address.", "fault 20.15"),
)
SIX_STEPS = MadeFolder(
    "five indirect words",
    boot("re 4 4 4", "rw 4 4 4", 4),
    """        entry   start
start:  lda     one,*
one:    zero    two,16
two:    zero    three,16
three:  zero    four,16
four:   zero    five,16
five:   zero    1024,0
""",
    ("Finding the address takes 6 steps; these are the last.", "fault 20.15, access violation 15."),
)


def refused_link(name, data, operand, *end):
    """A folder whose first instruction has a link that is refused."""
    source = f"        entry   start\nstart:  lda     {operand}\n"
    return MadeFolder(name, boot("re 4 4 4", data, 4), source, end)


LINKS = (
    refused_link(
        "a ring above R3", "rw 1 1 3", "data$", "code L4.", "Ring 4 is above R3 = 3 of data."
    ),
    refused_link(
        "a ring above R2, and no e",
        "rw 1 1 5",
        "data$",
        "code L4.",
        "Ring 4 is above R2 = 1 of data, which has no e in its mode.",
    ),
    refused_link("no such segment", "rw 4 4 4", "none$", "L2: no directory that is searched has"),
    refused_link("no such entry", "rw 4 4 4", "data$a", "L3: the segment that was found does not"),
)


def each_line():
    """A source line for each instruction, and one for each modifier."""
    registers = ["au", "qu", "du", "ic", "al", "ql", "dl"] + [f"x{number}" for number in range(8)]
    modifiers = ["*", "*n", "i", "id", "di", "ad", "sd", *registers]
    modifiers += [f"{register}*" for register in registers]
    modifiers += [f"*{register}" for register in registers]
    lines = [f"        {row.name} 5\n" for row in TABLE.values()]
    lines += [f"        lda     {number},{text}\n" for number, text in enumerate(modifiers)]
    return "".join(lines) + "        lda     pr3|-7,*x1\n"


EACH = MadeFolder(
    "each instruction and each modifier",
    boot("re 4 4 4", "rw 4 4 4", 4),
    "        entry   start\nstart:  drl     0\n" + each_line(),
    ("Step 1: ring 4 executes drl 0", "DRL gives its fault.", "fault 6, DRL."),
)

ENDED = (RIGHTS, LOADED, ABSENT, TOO_MUCH, UNREAD, STRANGE, MOST, OUTER, MASTER)
FOLDERS = (EACH, *ENDED, REFUSED_STEP, SIX_STEPS, *LINKS)
