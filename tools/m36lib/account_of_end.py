"""The end of a run in words, and objects that are older than their sources.

    end_in_words(program, words, folder)     sentences about the end of the run that `m36 WORDS` was
    stale_objects(program, folder)           a line for each object that is not of its source

The run is made again by `m36 debug`. Both are meant for the script, after a run that did not end by
DIS and before a run."""

import pathlib
import shutil
import subprocess
import tempfile

from .folder import Boot, source_of
from .machine import Machine, Refusal
from .recorder import Recorder, end_text
from .words import code_entry

DEFAULT_STEPS = 100_000
MOST_WORKED_OUT = 2_000
MOST_AGAIN = 20_000
MOST_LINKS = 4
VALUE_OPTIONS = ("--steps", "--user")


class Words:
    """The words of a call of m36, as far as they are about a run."""

    def __init__(self, words):
        self.command = words[0] if words else None
        self.options = {}
        self.operands = []
        rest = list(words[1:])
        while rest:
            word = rest.pop(0)
            name, equals, value = word.partition("=")
            if word == "--":
                self.operands += rest
                rest = []
            elif name in VALUE_OPTIONS:
                self.options[name] = value if equals else rest.pop(0) if rest else ""
            elif not word.startswith("--"):
                self.operands.append(word)

    def steps(self):
        text = self.options.get("--steps", "")
        return int(text) if text.isdigit() else DEFAULT_STEPS

    def image(self):
        return self.operands[0] if self.command == "bare" and self.operands else None

    def is_run(self):
        return self.command in ("run", "trace") or self.image() is not None


def end_in_words(program, words, folder="."):
    """Sentences that say how the run ended that `m36 WORDS` made: the instruction, its place, the
    ring, what was asked of which word in which ring, and the rule that refused it.

    None are given where the run ends by DIS or at its limit, where the words make no run, and where
    the program refuses the folder."""
    program = str(pathlib.Path(program).resolve())
    call = Words(words)
    if not call.is_run():
        return []
    try:
        if "--user" in call.options:
            with granted_folder(program, call.options["--user"], folder) as granted:
                return sentences_of_end(program, granted, None, call.steps()) if granted else []
        return sentences_of_end(program, folder, call.image(), call.steps())
    except Refusal:
        return []


def sentences_of_end(program, folder, image, limit):
    with Machine(program, folder, image) as machine:
        line = run_to_end(machine, limit)
        taken = machine.taken - 1
    if line is None or line.startswith("end dis "):
        return []
    turns = last_turns(program, folder, image, taken)
    services = [turn for turn in turns[1:] if hasattr(turn, "after_step")]
    said = [turn.text for turn in services] + refused_links(services, folder)
    return [*step_sentences(turns[0]), *said, end_text(line)]


def last_turns(program, folder, image, taken):
    """The last step, after `taken` others, and what follows it. If these are many, the quick way is
    tried first."""
    ways = (False,) if taken <= MOST_WORKED_OUT else (True, False)
    for quick in ways:
        with Recorder(program, folder, image) as recorder:
            recorder.go_to(taken, quick)
            turns = [turn for turn in recorder.turns(1) if not hasattr(turn, "page")]
        if not turns[0].differences or taken > MOST_AGAIN:
            break
    return turns


def run_to_end(machine, limit):
    """The end line of the run, or None where it meets the limit of steps first."""
    while machine.taken < limit:
        for line in ("go", "step"):
            (answer,) = machine.ask(line)
            if answer[-1].startswith("end "):
                return answer[-1] if machine.taken <= limit else None
    return None


def step_sentences(step):
    """What the step did that ended the run."""
    at, account = step.at, step.account
    source = f" ({at.file}, line {at.line})" if at.file else ""
    if account.instruction is None:
        what = f"Step {step.number}: ring {at.ring} is to execute the word at {at.name}."
    else:
        what = f"Step {step.number}: ring {at.ring} executes {account.instruction} at {at.name}"
        what += f"{source}."
    if step.differences:
        return [what, f"The machine did otherwise than the account of it: {step.trace}"]
    return [what, *chain_sentences(account), *refusal_sentences(account)]


def chain_sentences(account):
    """The steps of finding the address, the last ones where there are many."""
    links = account.chain
    if len(links) == 1 and links[0].point.ring == account.at.ring:
        return []
    shown = links[-MOST_LINKS:]
    left_out = len(links) - len(shown)
    many = f"Finding the address takes {len(links)} steps; these are the last."
    found = [many] if left_out else []
    return found + [link.text for link in shown]


def refusal_sentences(account):
    refused = [reference for reference in account.references if not reference.allowed]
    found = []
    for reference in refused:
        where = ""
        if reference.link is not None:
            where = f" This is step {reference.link + 1} of finding the address."
        rule = f" (docs/MANUAL.md, section {reference.rule})"
        found.append(f"{reference.question} {reference.answer}{where}{rule}")
    if not refused:
        outcome = account.outcome
        found.append(f"{outcome.text} (docs/MANUAL.md, section {outcome.rule})")
    return found


# Links that the linker refused.


def refused_links(services, folder):
    """Why links were refused, beyond the code."""
    refused = [turn for turn in services if getattr(turn, "code", None)]
    return [why_refused(turn, folder) for turn in refused]


def why_refused(turn, folder):
    """The bracket that keeps a ring from the segment of a link; else the sentence of the code."""
    bracket = bracket_below(turn, folder) if turn.code == "L4" else None
    if bracket:
        return f"Ring {turn.ring} is above {bracket}."
    entry = code_entry(turn.code)
    return f"{entry.word}: {entry.sentence}; {entry.advice}"


def bracket_below(turn, folder):
    """The bracket that the ring of a link is above (docs/LINKS.md, "The answer"); None where the
    boot text has several segments of the link's name."""
    name = turn.link.partition("$")[0]
    boot = Boot((pathlib.Path(folder) / "boot").read_text(encoding="ascii"))
    found = [segment for segment in boot.segments if name in segment.names]
    if len(found) != 1:
        return None
    (segment,) = found
    if turn.ring > segment.r3:
        return f"R3 = {segment.r3} of {name}"
    return f"R2 = {segment.r2} of {name}, which has no e in its mode"


# Rights of a user.


class granted_folder:
    """A copy of a folder in which the boot text has the rights that access lists give to a user.
    Its value is the path of the copy, or None where the program does not say the rights."""

    def __init__(self, program, user, folder):
        self.program, self.user, self.folder = program, user, pathlib.Path(folder)
        self.copy = tempfile.TemporaryDirectory()

    def __enter__(self):
        done = subprocess.run(
            [self.program, "access", self.user], cwd=self.folder, capture_output=True
        )
        if done.returncode:
            return None
        modes = [line.split(" ")[2] for line in done.stdout.decode("ascii").splitlines()]
        lines = (self.folder / "boot").read_text(encoding="ascii").splitlines()
        copy = pathlib.Path(self.copy.name)
        given = iter(modes)
        for number, line in enumerate(lines):
            words = line.split(" ")
            if words[0] == "segment":
                words[5] = with_privilege(next(given), words[5])
                lines[number] = " ".join(words)
                copy_file(self.folder, copy, words[3])
                copy_file(self.folder, copy, words[3] + ".alm")
        (copy / "boot").write_text("\n".join(lines) + "\n", encoding="ascii")
        return copy

    def __exit__(self, *_):
        self.copy.cleanup()


def with_privilege(given, of_boot):
    """The mode that a user has: whether a segment is privileged stays."""
    mode = ("" if given == "null" else given) + ("p" if "p" in of_boot else "")
    return mode or "null"


def copy_file(folder, copy, name):
    if (folder / name).is_file() and not (copy / name).exists():
        shutil.copy2(folder / name, copy / name)


# Objects that are older than their sources.


def stale_objects(program, folder="."):
    """A line for each object of the boot text that is not what its source assembles to."""
    program, folder = str(pathlib.Path(program).resolve()), pathlib.Path(folder)
    found = []
    for name in object_files(folder):
        if not (folder / f"{name}.bind").exists() and (folder / name).is_file():
            source = source_of(program, folder, name)
            if source and source.problem:
                found.append(f"{source.problem}: `m36 alm {name}` makes it anew")
    return found


def object_files(folder):
    """The files of the objects and gates of a boot text, as far as it can be read."""
    try:
        boot = Boot((folder / "boot").read_text(encoding="ascii"))
    except (OSError, ValueError, IndexError):
        return []
    files = [segment.file for segment in boot.segments if segment.kind != "data"]
    return list(dict.fromkeys(files))
