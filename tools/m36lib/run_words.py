"""The sentence of each status, end of a run, fault, access violation and stop.

A part of the table of `m36lib.words`.
"""

from m36lib.entries import faults, group

STATUS_GROUP = group(
    "Statuses",
    "COMMANDS.md",
    '"Statuses"',
    (
        "Done",
        "the output is written, whole; what was audited passes, and what was run ended by DIS or "
        "with its schedule",
        "nothing is wrong",
    ),
    (
        "Usage",
        "the words are no command, so nothing was read or written",
        "`m36` without words prints the commands, options and statuses",
    ),
    (
        "ReadFault",
        "a file, or the input of a session, could not be read",
        "look at the rights of the file, and whether it is a folder",
    ),
    (
        "WriteFault",
        "the output, or a file, could not be written: of the output there may be a first part, and "
        "the file is as it was",
        "look for a full disk, a closed pipe, or a file or folder without the right to write",
    ),
    (
        "BadFile",
        "a file is absent, too large or not of its form",
        "the line goes on with the file, the code, the place and the column: `m36-explain CODE`",
    ),
    (
        "AuditNo",
        "the audit fails, so nothing was run",
        "each line `audit no` of the output has a condition, as A3: `m36-explain A3`; "
        "`--unaudited` runs it nevertheless",
    ),
    (
        "MachineStop",
        "the run ended by a fault or a stop other than DIS, or because a link or a console "
        "service was refused",
        "the line `end` of the output says which, as in `end fault 20.3 8`: `m36-explain 20.3`",
    ),
    (
        "Steps",
        "the run took all the steps that it may take",
        "`--steps N` allows up to 10,000,000; a loop that never ends takes them all",
    ),
    (
        "NoMemory",
        "memory ran out",
        "give the program more memory, or take a smaller input",
    ),
)

END_GROUP = group(
    "Ends of a run",
    "MANUAL.md",
    "sections 11, 12 and 15",
    (
        "dis",
        "the program executed DIS in ring 0 and stopped, as it should",
        "`end dis 13` ended after 13 steps, with status 0",
    ),
    (
        "limit",
        "the run took all the steps that it may take, and had not ended",
        "`--steps N` allows up to 10,000,000",
    ),
    (
        "schedule",
        "every event of the schedule was made",
        "a process that had stopped or faulted took its turns too",
    ),
    (
        "stop operation",
        "the word that was to be executed has no instruction",
        "the program has run into its data, or jumped to a wrong place",
    ),
    (
        "stop tag",
        "the tag of an indirect word names a modification that is not provided",
        "the word is no indirect word, or its tag is wrong",
    ),
    (
        "console",
        "the console was asked for more than 256 characters",
        "A has the count of characters at MME: load it before the call",
    ),
    (
        "link",
        "a link could not be snapped",
        "the code of the end line says why, as L2 in `end link L2 3`: `m36-explain L2`",
    ),
    (
        "denied",
        "the access lists do not give the user the right that the program needed",
        "`denied DIR NAME TERM` names the segment and the term that decides: `m36 access USER`",
    ),
)

FAULT_GROUP = faults(
    "Faults",
    "MANUAL.md",
    "section 11",
    (
        "1",
        "store",
        "the word that was referred to, or a table word on the way to it, is past the end of core",
        "give more frames of core, or look at the address in the descriptor",
    ),
    (
        "2",
        "MME",
        "the program executed MME",
        "in ring 0 of a booted folder MME asks the console; elsewhere it ends the run",
    ),
    (
        "3",
        "fault tag F1",
        "an indirect word has the tag 40, which is a fault",
        "look at the word: it is none to go through, or its tag is wrong",
    ),
    (
        "5",
        "command",
        "LPRP met a word whose first two bits are on",
        "the word is no packed pointer",
    ),
    ("6", "DRL", "the program executed DRL", "nothing serves DRL here, so it ends the run"),
    (
        "7",
        "lockup",
        "an address chain would read a 17th indirect word",
        "the indirect words lead to one another: look for a circle",
    ),
    (
        "10",
        "illegal procedure",
        "the instruction is privileged, or does not allow its tag or its direct operand",
        "privileged instructions need ring 0 and a segment with the mode `p`; `dl` and `du` go "
        "with instructions that read one word",
    ),
    (
        "13",
        "overflow",
        "a signed result is out of range, and the overflow mask is off",
        "use smaller numbers, or set the mask by LDI",
    ),
    (
        "14",
        "divide check",
        "a division by zero, or of the least number by -1",
        "test the divisor first",
    ),
    *(
        (
            str(16 + number),
            f"directed fault {number}",
            f"the descriptor or page that is needed is absent, and names directed fault {number}",
            "the segment number is that of no segment, or its page is not in core",
        )
        for number in range(4)
    ),
    (
        "20",
        "access violation",
        "the ring may not do this with this word",
        "the number after the point says why: `m36-explain 20.3`",
    ),
    (
        "24",
        "fault tag F2",
        "an indirect word has the tag 46, which is a fault",
        "a link has this tag until it is snapped; in a bare image nothing snaps it",
    ),
    (
        "25",
        "fault tag F3",
        "an indirect word has the tag 47, which is a fault",
        "look at the word: it is none to go through, or its tag is wrong",
    ),
)

VIOLATION_GROUP = group(
    "Access violations",
    "MANUAL.md",
    "section 6",
    (
        "20.0",
        "the ring brackets of the segment are out of order",
        "the descriptor must have R1 at most R2 at most R3",
    ),
    (
        "20.1",
        "the ring is outside the execute bracket of the segment: below R1 or above R2",
        "give the segment brackets that have the ring, or call it through a gate",
    ),
    (
        "20.2",
        "the segment may not be executed: E is off",
        "give it the mode `e`, in the boot text or the access list",
    ),
    (
        "20.3",
        "the ring of the reference is above R2, so it may not read the segment",
        "the ring of a reference is the greatest of those that had a hand in the pointer",
    ),
    (
        "20.4",
        "the segment may not be read: R is off, and it is not the one that executes",
        "give it the mode `r`, in the boot text or the access list",
    ),
    (
        "20.5",
        "the ring of the reference is above R1, so it may not write the segment",
        "write from ring R1 or below, or raise R1",
    ),
    (
        "20.6",
        "the segment may not be written: W is off",
        "give it the mode `w`, in the boot text or the access list",
    ),
    (
        "20.7",
        "the word that is called is no entry of the gate: it is not below the call limiter",
        "call an entry that its source has before `entrybound`",
    ),
    (
        "20.8",
        "the ring is above R3, so it may not call the segment",
        "raise R3 of the gate, or call from a lower ring",
    ),
    (
        "20.9",
        "the ring is below R1: a call can't go to an outer ring",
        "a call keeps its ring or goes inward; RTCD goes outward",
    ),
    (
        "20.10",
        "the ring of the call was raised above the ring of execution, which is below R2",
        "the pointer of the call came through an outer ring: take one of this ring",
    ),
    (
        "20.12",
        "a transfer can't change the ring, and the pointer came through an outer ring",
        "call by CALL6, or return by RTCD",
    ),
    (
        "20.15",
        "the segment number or the word is past the bound",
        "there is no such segment, or it is shorter: look at the address",
    ),
)
