"""Checks of what the debugger answers to commands that are wrong, and of the smaller commands."""

import shutil

from . import cases
from .check_debug36 import example, found_by, run
from .check_debug_words import check_answers
from .debugging import Session, completion

OPERATORS = "there are + - & | == != < <= > >= ! && ||"
WATCHED = "words can, and a, q, x0 to x7, pr0 to pr7 and ind"
FORMS = "/o octal, /d decimal, /c characters"
SUBJECTS = "breakpoints, registers, frame, rings, segments, source, line, console, display"
# Of examples/servant after six steps. A has the word 000100000004.
MISTAKES = (
    ("watch x2 if x2 == 4", "? a watchpoint has no condition"),
    ("break gate_$fetch if", "? a condition is missing after `if`"),
    ("break if", "? a condition is missing after `if`"),
    ("break gate_$fetch of a == 1", "? `if` is expected before a condition, and not of"),
    ("break main$start if a = = 1", "? a value is expected before ="),
    ("watch pr9", "? there is no register pr9: there are pr0 to pr7"),
    ("print x8", "? there is no register x8: there are x0 to x7"),
    ("watch ring", f"? ring can't be watched: {WATCHED}"),
    ("who pr2.word", f"? pr2.word can't be watched: {WATCHED}"),
    ("print secret", "? secret is a segment; a word of it is secret|0"),
    ("who secret", "? secret is a segment; a word of it is secret|0"),
    ("x secret", "? secret is a segment; a word of it is secret|0"),
    ("print pr2|0,*", "? a place has no modifier; `x/p pr2|0` shows the pair there"),
    ("disassemble main$start,5", "a count follows a blank, as in `disassemble main$start 5`"),
    ("print x1 * 2", f"? there is no operator *; {OPERATORS}"),
    ("print [pr2|0", "? a ] is missing after [pr2|0"),
    ("x [pr2|0", "? a bracket of [pr2|0 is missing"),
    ("print a == -1", "? a value is expected before -; there is no unary minus: write 0 - 1"),
    ("print 0x10", "? 0x10 is no number: numbers are octal"),
    ("goto", "? which step?"),
    ("condition", "? of which breakpoint?"),
    ("break gate_:4 ; continue", "? a line has one command"),
    ("until main$start 5", "? 5 is not expected after the place main$start"),
    ("display x/i .", "? the form is after the name, as in `display/i .`"),
    ("info fly", f"? there is no information about fly; there is about {SUBJECTS}"),
    ("list/5", "? list has no form /5"),
    ("print/x a", f"? /x is no form of a value: {FORMS}"),
    ("print/d pr2", "? pr2 is no number; `print pr2` shows it"),
    ("quit now", "? now is not expected"),
    ("delete 3-1", "? 3-1 is no range of numbers"),
)
SMALL = (
    ("watch [pr6|40]", "Watchpoint 1: stack_4|140 is 000000000000"),
    ("x [secret|0]", "secret|0 123456701234"),
    ("print *pr2", "main$start+10 = 00100|000010: 000100000043"),
    ("print/d a", "a = 16777220 decimal"),
    ("p/o a", "a = 100000004 octal"),
    ("p/c a", r'a = "\000@\000\004"'),
    ("p/d 1 - 2", "1 - 2 = -1 decimal"),
    ("p/d main$here", "main$here = 7 decimal"),
    ("display/i $pc", "1: => gate_$fetch 000001710000 tra 1"),
    ("display/d ring", "2: ring = 1 decimal"),
    ("step", "1: => gate_|1 200000235120 lda pr2|0,*|2: ring = 1 decimal"),
    ("info display", "1: => gate_|1 200000235120 lda pr2|0,*|2: ring = 1 decimal"),
    ("undisplay 1 9", "? there is no display 9"),
    ("info display", "1: => gate_|1 200000235120 lda pr2|0,*|2: ring = 1 decimal"),
    ("info regs a", "a = 000100000004"),
    ("info source", "gate_.alm is the source of gate_, with 5 lines"),
    ("info line", "gate_.alm:4 in: lda pr2|0,*"),
    ("why", "7 steps have been taken."),
    ("console", "The console has written nothing so far."),
    ("x/2o secret|777777", "secret|777777 none|no segment has a word after 777777"),
    ("x", "? no segment has a word after 777777"),
    ("disassemble secret|777776", "secret|777777 no word|no segment has a word after 777777"),
    ("x/200o secret|0", "000000000000|secret|40 none, up to secret|307"),
    ("continue 2", "Stopped after 2 steps; `continue` goes on."),
)


def may_read(word):
    return f"|May ring 4 read main$start+{word}? Yes: ring 4 is at most R2 = 4, and R is on."


# Breakpoints at one place, and numbers of which there is nothing.
NUMBERS = (
    ("break gate_$in", "Breakpoint 1 at gate_|1, gate_.alm:4"),
    ("tbreak gate_$in", "Breakpoint 2 at gate_|1, gate_.alm:4"),
    ("tbreak gate_$in if a == 7", "Breakpoint 3 at gate_|1, gate_.alm:4"),
    ("disable 1,9", "? there is no breakpoint or watchpoint 9"),
    ("delete 1 9", "? there is no breakpoint or watchpoint 9"),
    ("info b", "1 break on gate_|1 gate_.alm:4 hits 0|2 tbreak on gate_|1 gate_.alm:4 hits 0|"
     "3 tbreak on gate_|1 gate_.alm:4 if a == 7 hits 0"),
    ("run", "Breakpoints 1 and 2: gate_|1.|step 7 ring 1 gate_|1|gate_.alm:4 in: lda pr2|0,*"
     f"{may_read(10)}{may_read(11)}{may_read(14)}"),
    ("info b", "1 break on gate_|1 gate_.alm:4 hits 1|3 tbreak on gate_|1 gate_.alm:4 "
     "if a == 7 hits 0"),
    ("disable", ""),
    ("condition 3", "Breakpoint 3 stops always, once it is enabled"),
    ("info b", "1 break off gate_|1 gate_.alm:4 hits 1|3 tbreak off gate_|1 gate_.alm:4 hits 0"),
    ("enable all", ""),
    ("watch secret|0", "Watchpoint 4: secret|0 is 123456701234"),
    ("delete 3-4", ""),
    ("info b", "1 break on gate_|1 gate_.alm:4 hits 1"),
)


# A line, the word at its end, and the words that it may become.
COMPLETIONS = (
    ("break main:5 if pr2", "pr2", ["pr2."]),
    ("break main:5 if a == 1 && pr2.", "pr2.", ["pr2.bit", "pr2.ring", "pr2.segment", "pr2.word"]),
    ("tbreak if ze", "ze", ["zero"]),
    ("condition 1 !neg", "!neg", ["!negative"]),
    ("condition 1 [gate_$", "[gate_$", ["[gate_$fetch", "[gate_$in"]),
    ("print pr7.s", "pr7.s", ["pr7.segment"]),
    ("print x1 + [gate_$f", "[gate_$f", ["[gate_$fetch"]),
    ("display tal", "tal", ["tally"]),
    ("break gate_$f", "gate_$f", ["gate_$fetch"]),
    ("break zer", "zer", []),
    ("info ", "", sorted(SUBJECTS.split(", "))),
)


def check_completions(program, work):
    with Session(program, str(example(program, "servant", work))) as session:
        for line, word, expected in COMPLETIONS:
            found = completion.choices(session, line, word)
            if found != expected:
                yield f"completion of {line!r}: {found}, not {expected}"


def check_tries(program, work, tries):
    with Session(program, str(example(program, "servant", work))) as session:
        session.go_to(6)
        yield from check_answers(session, tries, True)


def check_mistakes(program, work):
    yield from check_tries(program, work, MISTAKES)


def check_small(program, work):
    yield from check_tries(program, work, SMALL)


def check_numbers(program, work):
    """Also that a refused command does nothing: `info b` shows it."""
    with Session(program, str(example(program, "servant", work))) as session:
        yield from check_answers(session, NUMBERS, False)


def check_beginning(program, work):
    """What is said where a session can't begin, and that a source means its folder."""
    bare, empty = work / "bare", work / "empty"
    shutil.copytree(cases.ROOT / "examples" / "servant", bare)
    empty.mkdir()
    servant = example(program, "servant", work)
    tries = (
        (bare, ".", 4, "debug36: main is not there; `m36 alm main` makes it from main.alm\n"),
        (bare, "main.alm", 4, "debug36: main is not there; `m36 alm main` makes it"),
        (empty, ".", 4, "debug36: . has no boot text, a file named boot\n"),
        (servant, "main.alm", 0, ""),
        (servant, "boot", 0, ""),
        (servant, "main", 4, "debug36: I1 of main: "),
    )
    for folder, what, status, said in tries:
        out, err, found = run(program, folder, ["step"], what=what)
        is_right = found == status and said in err and ("step 1" in out) == (not status)
        if not is_right:
            yield f"{folder.name} {what}: {found} {err!r}, not {status} {said!r}"
    (servant / "main.alm").write_text((servant / "main.alm").read_text().replace("epaq", "epp1"))
    _, err, _ = run(program, servant, ["step"])
    if "debug36: main is not what main.alm assembles to; run `m36 alm main`\n" not in err:
        yield f"a stale object: {err!r}"


CHECKS = (check_completions, check_mistakes, check_small, check_numbers, check_beginning)


def check_debug_mistakes(program, work, show=print):
    """The number of things that are not as they should be."""
    wrong = [line for check in CHECKS for line in found_by(check, program, work)]
    for line in wrong:
        show(line)
    tries = sum(map(len, (COMPLETIONS, MISTAKES, SMALL, NUMBERS)))
    show(f"debug mistakes: {tries} answers worked out by hand, {len(wrong)} things wrong")
    return len(wrong)
