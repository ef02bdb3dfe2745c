"""Tests of the tables: the words of the command line and the table of sentences."""

import random
import re
import tempfile

from m36lib import commands, words
from m36lib.usage import wrong_word
from speak_tests.answering import ROOT

SEED, LISTS = 36, 300
# Pieces of command lines, right and wrong.
PIECES = """
x a.b A.B.a --steps --steps=5 --steps= 5 --user --user=A.B.a --user= --unaudited --unaudited=1 --
--help - -x .x 10000000 10000001 99999999 123456789 A.B.A a/b é rum
""".split() + ["", "a" * 27, "a" * 28, "a" * 32, "a" * 33, "1" * 18, "1" * 19]


# What follows each command: an operand or none, and an option or none.
OPERANDS = ([], ["x"], ["A.B.a"])
OPTIONS = (
    [],
    ["--steps", "5"],
    ["--steps=10000000"],
    ["--steps=10000001"],
    ["--unaudited"],
    ["--user", "A.B.a"],
)


def word_lists():
    """Each command with each operand and option; and lists by a seed, most with a command first."""
    for command in commands.COMMANDS:
        for operand in OPERANDS:
            yield from ([command.word, *operand, *option] for option in OPTIONS)
    chance = random.Random(SEED)
    for _ in range(LISTS):
        pieces = [PIECES[chance.randrange(len(PIECES))] for _ in range(chance.randrange(5))]
        if chance.randrange(10):
            pieces.insert(0, commands.COMMANDS[chance.randrange(len(commands.COMMANDS))].word)
        yield pieces


def usage_is_that_of_the_program(tried):
    """Words are called wrong exactly where the program answers Usage."""
    wrong = []
    with tempfile.TemporaryDirectory() as folder:
        for pieces in word_lists():
            status = tried.directly(pieces, folder).returncode
            if (status == 1) != (wrong_word(pieces) is not None):
                wrong.append(f"{pieces}: status {status}, and {wrong_word(pieces)}")
    return wrong


def names_are_refused_without_a_hint(_tried):
    """For a command or an option that there is not, the answer is the same whatever it is like."""
    wrong = []
    for near, far in ((["bar"], ["zzzzz"]), (["run", "--step"], ["run", "--zzzz"])):
        given = [(wrong_word(pieces).sentence, f'"{pieces[-1]}"') for pieces in (near, far)]
        answers = [sentence.replace(word, "X") for sentence, word in given]
        if answers[0] != answers[1]:
            wrong.append(f"{answers[0]} / {answers[1]}")
    return wrong


def spec(path):
    """The text of a module of the definitions."""
    return (ROOT / "crates" / path).read_text()


def sentences_are_complete(_tried):
    """The table has each status, code, fault, access violation and stop of the definitions."""
    names = spec("m36_status/specs/Names.antt")
    faults = re.findall(r"^\w+ = (\d+)$", spec("m36_model/specs/Faults.antt"), re.M)
    violations = re.findall(r"^\w+ = (\d+)$", spec("m36_desc/specs/Violations.antt"), re.M)
    wanted = set(re.findall(r'codes "(\w+)"', names))
    wanted |= {n for n in faults if n != "1"} | {f"20.{n}" for n in violations}
    wanted |= {"1", *(str(16 + n) for n in range(4))}
    lines = spec("m36_trace/specs/TraceLine.antt")
    wanted |= set(re.findall(r'_text \w+ = codes "(dis|stop \w+)"', lines))
    wanted |= {f"L{n}" for n in range(1, 7)} | {f"A{n}" for n in range(1, 7)} | {"J2", "J3"}
    wanted |= {"limit", "schedule", "console"}
    wrong = [f"no sentence for {word}" for word in sorted(wanted) if not words.entries_of(word)]
    statuses = re.findall(r"^status_number \(?(\w+).*= (\d)$", names, re.M)
    table = [(status.name, str(status.number)) for status in commands.STATUSES]
    return wrong + ([] if statuses == table else [f"statuses {table}"])


def sentences_are_told_apart(_tried):
    """No word has two entries, and no two codes have one sentence."""
    entries = [entry for group in words.GROUPS for entry in group]
    once = [entry.word for entry in entries]
    codes = [entry.sentence for group in words.CODE_GROUPS for entry in group]
    twice = [word for word in once if once.count(word) > 1]
    return [f"{word} twice" for word in twice + [s for s in codes if codes.count(s) > 1]]


TESTS = (
    usage_is_that_of_the_program,
    names_are_refused_without_a_hint,
    sentences_are_complete,
    sentences_are_told_apart,
)
