"""Checks of what the debugger reads and shows, against what was worked out by hand."""

import re

from .check_debug36 import example, found_by, made
from .debugging import Session
from .debugging.front import Front

NEGATIVE = 0o700026764161 - (1 << 36)
# Of examples/servant after six steps: the call of gate_$fetch has been made, and PR2 points to the
# pair `own` of main. Each command with its answer, blanks as one.
SERVANT = (
    ("print 10", "10 = 10 octal, 8 decimal"),
    ("print 10.", "10. = 12 octal, 10 decimal"),
    ("print a", "a = 000100000004"),
    ("print $pr2", "pr2 = 4:00100|000010 00"),
    ("p/o ring", "ring = 1 octal"),
    ("print segment", "segment = 101 octal, 65 decimal"),
    ("print step", "step = 6 octal, 6 decimal"),
    ("print ring + 2 - 1", "ring + 2 - 1 = 2 octal, 2 decimal"),
    ("print 7 & 12", "7 & 12 = 2 octal, 2 decimal"),
    ("print 5 | 2", "5 | 2 = 7 octal, 7 decimal"),
    ("print 1 - 2", "1 - 2 = 777777777777 octal, 68719476735 decimal"),
    ("print 1 < 2 && 2 < 1", "1 < 2 && 2 < 1 = 0 octal, 0 decimal"),
    ("print 1 < 2 || 2 < 1", "1 < 2 || 2 < 1 = 1 octal, 1 decimal"),
    ("print 2 < 2 || 2 > 2", "2 < 2 || 2 > 2 = 0 octal, 0 decimal"),
    ("print !0", "!0 = 1 octal, 1 decimal"),
    ("print !(1 == 1)", "!(1 == 1) = 0 octal, 0 decimal"),
    ("print 2 >= 2", "2 >= 2 = 1 octal, 1 decimal"),
    ("print 3 <= 2", "3 <= 2 = 0 octal, 0 decimal"),
    ("print 3 != 3", "3 != 3 = 0 octal, 0 decimal"),
    ("print 3 > 2", "3 > 2 = 1 octal, 1 decimal"),
    ("print 3 = 3", "3 = 3 = 1 octal, 1 decimal"),
    ("print pr2.word", "pr2.word = 10 octal, 8 decimal"),
    ("print pr2.ring + pr7.ring", "pr2.ring + pr7.ring = 5 octal, 5 decimal"),
    ("print zero", "zero = 0 octal, 0 decimal"),
    ("print [main|14]", "[main|14] = 7 octal, 7 decimal"),
    ("print [pr2|4] == 7", "[pr2|4] == 7 = 1 octal, 1 decimal"),
    ("print [secret|0] & 77", "[secret|0] & 77 = 34 octal, 28 decimal"),
    ("print main$start+2", "main$start+2 = 00100|000002: 000010352000"),
    ("print main:12", "main$start+11 = 00100|000011: 000014000000"),
    ("print main:10", "main$start+10 = 00100|000010: 000100000043"),
    ("print main.alm:14", "main$start+14 = 00100|000014: 000000000007"),
    ("print main$here", "main$start+14 = 00100|000014: 000000000007"),
    ("print main$here-2", "main$start+12 = 00100|000012: 000102000043"),
    ("print main|10.", "main$start+12 = 00100|000012: 000102000043"),
    ("print secret|0", "secret|0 = 00102|000000: 123456701234"),
    ("print 00102|0", "secret|0 = 00102|000000: 123456701234"),
    ("print pr6|24", "stack_4|124 = 00014|000124: 000100400043"),
    ("print pr2|-10", "main$start = 00100|000000: 000000213004"),
    ("print fetch", "gate_$fetch = 00101|000000: 000001710000"),
    ("print in", "gate_|1 = 00101|000001: 200000235120"),
    ("print .", "gate_$fetch = 00101|000000: 000001710000"),
    ("print ic", "gate_$fetch = 00101|000000: 000001710000"),
    ("print $pc", "gate_$fetch = 00101|000000: 000001710000"),
    ("print $pc == 0", "$pc == 0 = 1 octal, 1 decimal"),
    ("print ic + 3", "ic + 3 = 3 octal, 3 decimal"),
    ("x/i pc", "=> gate_$fetch 000001710000 tra 1"),
    ("print gate_$in+1", "gate_|2 = 00101|000002: 600024610100"),
    ("x/2o main$own", "main$start+10 000100000043 000014000000"),
    ("x/2d main$start", f"main$start {0o000000213004} {NEGATIVE}"),
    ("x/p pr6|25", "stack_4|124 000100400043 000005000000 its 4:00100|000005 00 main$start+5"),
    ("x/2i .", "=> gate_$fetch 000001710000 tra 1|gate_|1 200000235120 lda pr2|0,*"),
    ("x/i $pc", "=> gate_$fetch 000001710000 tra 1"),
    ("x *main|14", "main$start+14 000000000007"),
    ("info registers a", "a = 000100000004"),
    ("backtrace 1", "#0 ring 1 gate_$fetch gate_.alm:2 in gate_$fetch, called in step 6"),
    ("x 00077|0", "00077|0 none"),
    ("backtrace", "#0 ring 1 gate_$fetch gate_.alm:2 in gate_$fetch, called in step 6|"
     "#1 ring 4 main$start+4 main.alm:6 in main$start, the start"),
    ("trace 1",
     "6 4 00100|000004 400010713120 4:00101|000000 000100000004 000000000000 ...... next"),
    ("print nowhere|0", "? there is no segment nowhere"),
    ("print main|9", "? 9 is no octal number; a decimal one has a point after it, as 18."),
    ("print 8", "? 8 is no octal number; a decimal one has a point after it, as 18."),
    ("print main:99", "? main:99: no word comes from this line or a later one"),
    ("print secret:1", "? secret:1: there is no source of secret"),
    ("print main$no", "? there is no entry and no label no in main"),
    ("print (1", "? a ) is missing"),
    ("print 1 +", "? the expression is not whole"),
    ("print 1 2", "? 2 is not expected after the expression"),
    ("print [00077|0]", "? there is no word at 00077|0"),
)
# Parts of longer answers there.
SERVANT_PARTS = (
    ("rings", "ring 1 executes, since step 6"),
    ("rings", "pr2 asks in ring 4: main$start+10"),
    ("rings", "pr7 asks in ring 1: stack_1|0"),
    ("segments", "00100 main 4 4 4 re--- r--- 0:r--- 2:r--- 3:r--- 4:r-e-"),
    ("segments", "=> 00101 gate_ 1 1 5 re--g r-e- 0:r--- 2:---c 3:---c 4:---c 5:---c"),
    ("segments", "00102 secret 1 1 1 r-w-- rw-- 0:rw--"),
    ("registers", "pr2 4:00100|000010 00 main$start+10"),
    ("info registers", "ic 00101|000000 ring 1 gate_$fetch|a "),
    ("list main:6", "6 call6 gate_$fetch"),
    ("will", "The address is gate_|1, in ring 1, which executes."),
    ("disassemble main$start 3", "main$start+2 000010352000 epp2 8"),
    ("break in", "Breakpoint 1 at gate_|1, gate_.alm:4"),
    ("step", "Breakpoint 1: gate_|1.|step 7 ring 1 gate_|1"),
    ("step", "step 8 ring 1 gate_|2|gate_.alm:5"),
)
# Characters of examples/say, whose line is seven words after start.
SAY = (("x/4c main$line", r'main$start+7 "hell" "o, w" "orld" "\012\000\000\000"'),)
# Calls in one segment, and the number of them after each step. `deeper` returns out of two.
CALLS = """ entry start
start: tsp2 sub
 tsx1 other
 tsp3 outer
 stcd pr6|20
 call6 far
 stcd pr6|20
 call6 deep
 stcd pr6|20
 nop 0
again: call6 near
sub: tra pr2|0
other: tra 0,x1
outer: tsp4 inner
 tra pr3|0
inner: tra pr4|0
far: tra pr6|20,*
near: rtcd pr6|20
deep: stcd pr6|22
 call6 deeper
deeper: rtcd pr6|20
"""
DEPTHS = (0, 1, 0, 1, 0, 1, 2, 1, 0, 0, 1, 0, 0, 1, 1, 2, 0, 0, 0, 1, 0, 1, 0, 1)


def answers(session, commands):
    """What each command writes, as one line with single blanks and `|` between lines."""
    lines = []
    front = Front(session, lines.append)
    for command in commands:
        lines.clear()
        front.do(command)
        yield "|".join(" ".join(line.split()) for line in lines)


def check_answers(session, tries, is_part):
    for (command, expected), found in zip(tries, answers(session, [each for each, _ in tries])):
        if found != expected and not (is_part and expected in found):
            yield f"{command}: {found!r}, not {expected!r}"


def check_servant(program, work):
    with Session(program, str(example(program, "servant", work))) as session:
        session.go_to(6)
        yield from check_answers(session, SERVANT, False)
        yield from check_answers(session, SERVANT_PARTS, True)


def check_say(program, work):
    with Session(program, str(example(program, "say", work))) as session:
        yield from check_answers(session, SAY, False)
        list(answers(session, ["continue"]))
        (found,) = answers(session, ["console"])
        if found != "> hello, world":
            yield f"console: {found!r}"


def check_depths(program, work):
    """Calls by TSPn and TSXn, one that is left by a transfer, and one that returns to its site."""
    with Session(program, str(made(program, work, "calls", CALLS))) as session:
        found = [0]
        for _ in DEPTHS[1:]:
            session.forward()
            found.append(len(session.frames()) - 1)
        if tuple(found) == DEPTHS:
            yield from check_leaving(session)
        else:
            yield f"calls: {found}, not {list(DEPTHS)}"


def check_leaving(session):
    """The moves over calls and out of them, from each step, once the run is known to its end."""
    last = len(DEPTHS) - 1
    for step in range(last):
        for move, depth in ((session.over, DEPTHS[step]), (session.out, DEPTHS[step] - 1)):
            after = [other for other in range(step + 1, last + 1) if DEPTHS[other] <= depth]
            if depth >= 0 and after:
                session.go_to(step)
                move()
                if session.step != after[0]:
                    yield f"{move.__name__} from {step} goes to {session.step}, not {after[0]}"
        before = [other for other in range(step) if DEPTHS[other] <= DEPTHS[step]]
        session.go_to(step)
        session.back_over()
        if step and session.step != before[-1]:
            yield f"back over from {step} goes to {session.step}, not {before[-1]}"


def check_numbers(program, work):
    """Breakpoints and watchpoints by their numbers: disabled, deleted, temporary, with hits."""
    commands = ("tbreak gate_$fetch", "break gate_:3 if a == 7", "watch secret|0", "info b",
                "disable 3", "delete 1", "run", "info b", "delete breakpoints",
                "info b", "delete 9",
                "condition 9 a == 1", "tbreak gate_$fetch", "run", "info b",
                "break gate_$fetch", "disable 5", "run", "enable 5", "run",
                "goto 0", "goto end")
    parts = ("Breakpoint 1 at gate_$fetch", "Breakpoint 2 at gate_|1, gate_.alm:4",
             "Watchpoint 3: secret|0 is 123456701234", "3 watch on secret|0 hits 0", "", "",
             "Breakpoint 2: gate_|1.|step 13 ring 1 gate_|1", "2 break on gate_|1 gate_.alm:4 "
             "if a == 7 hits 1|3 watch off", "", "no breakpoints and no watchpoints",
             "? there is no breakpoint or watchpoint 9", "? there is no breakpoint 9",
             "Breakpoint 4", "Breakpoint 4: gate_$fetch.|step 6",
             "no breakpoints and no watchpoints", "Breakpoint 5", "",
             "The run ends after 14 steps: fault 20.3", "", "Breakpoint 5: gate_$fetch.|step 6",
             "step 0", "The run ends after 14 steps: fault 20.3")
    with Session(program, str(example(program, "servant", work))) as session:
        yield from check_answers(session, tuple(zip(commands, parts)), True)


def check_frames(program, work):
    """The places of calls, and values that are shown at each stop."""
    commands = ("up", "up", "list", "down", "down", "frame 1", "frame 2", "display [main|14]",
                "display pr2.word - 1", "back", "undisplay 1", "step", "undisplay", "undisplay 7",
                "display x9")
    parts = ("#1 ring 4 main$start+4 main.alm:6 in main$start, the start|main.alm:6 call6 gate_",
             "? this is the outermost call", "6 call6 gate_$fetch", "#0 ring 1 gate_$fetch",
             "? this is the innermost call", "#1 ring 4 main$start+4", "? there is no such call",
             "1: [main|14] = 7 octal, 7 decimal", "2: pr2.word - 1 = 7 octal, 7 decimal",
             "|1: [main|14] = 7 octal, 7 decimal|2: pr2.word - 1 = 7 octal, 7 decimal", "",
             "|2: pr2.word - 1 = 7 octal, 7 decimal", "", "? there is no display 7",
             "? there is no register x9: there are x0 to x7")
    with Session(program, str(example(program, "servant", work))) as session:
        session.go_to(6)
        yield from check_answers(session, tuple(zip(commands, parts)), True)


# Of examples/wild, whose main.alm has 22 lines and con_.alm 7: what is typed, with the numbers of
# the lines that are listed, or the refusal.
LISTED = (
    ("list", range(1, 11)),
    ("list", range(11, 21)),
    ("list", range(21, 23)),
    ("list", "? the source ends at line 22"),
    ("list -", range(11, 21)),
    ("list -", range(1, 11)),
    ("list -", "? there is nothing before line 1"),
    ("list 2,4", range(2, 5)),
    ("list", range(5, 15)),
    ("list 20,99", range(20, 23)),
    ("list 23,24", "? the source ends at line 22"),
    ("list 4,2", "? the form is `list FIRST,LAST`, with the numbers of two lines"),
    ("list con_:4", range(1, 8)),
    ("list", "? the source ends at line 7"),
    ("list con_.alm:2,3", range(2, 4)),
    ("list secret:2,3", "? there is no segment secret"),
    ("list main:12", range(7, 17)),
)
NUMBERED = re.compile(r"(?:=>|  )[b ] *([0-9]+)  ")


def check_list(program, work):
    """`list` goes on at the next line, and back, in sources and in words without one."""
    with Session(program, str(example(program, "wild", work))) as session:
        lines = []
        front = Front(session, lines.append)
        for command, expected in LISTED:
            lines.clear()
            front.do(command)
            found = lines[0]
            if not isinstance(expected, str):
                expected = list(expected)
                found = [int(NUMBERED.match(line + "  ")[1]) for line in lines]
            if found != expected:
                yield f"{command}: {found}, not {expected}"
        words = list(answers(session, ("list stack_4|20", "list", "list -")))
        names = [re.findall(r"stack_4\|([0-7]+)", text) for text in words]
        counted = [[f"{word:o}" for word in range(first, first + 10)] for first in (13, 23, 13)]
        if names != counted:
            yield f"list of words: {names}, not {counted}"


CHECKS = (check_servant, check_say, check_depths, check_numbers, check_frames, check_list)


def check_debug_words(program, work, show=print):
    """The number of things that are not as they should be."""
    wrong = [line for check in CHECKS for line in found_by(check, program, work)]
    for line in wrong:
        show(line)
    tries = len(SERVANT) + len(SERVANT_PARTS) + len(SAY)
    show(f"debug words: {tries} answers worked out by hand, {len(wrong)} things wrong")
    return len(wrong)
