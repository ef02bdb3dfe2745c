"""Several processes on one core: the run of `m36 procs`, from its trace alone.

There is no session over such a run, so a step has no account, and of the registers A, Q and the
indicators alone are known. A Schedule is used as a Recorder is."""

import pathlib
import subprocess
import tempfile

from .disassemble import disassemble
from .fields import dbr_of
from .folder import NoSources
from .headers import image_segments
from .image import Image
from .machine import Refusal
from .record import FORMAT, EndTurn

RUN, STEP = "12", "8"


class JsonTurn:
    """What is known as JSON alone: the header, or a step."""

    def __init__(self, fields):
        self.fields = fields

    def as_json(self):
        return self.fields


def is_schedule(path):
    """Whether a file is a text of several processes; not where it can't be read, which the program
    is to say."""
    try:
        lines = pathlib.Path(path).read_bytes().split(b"\n", 2)
    except OSError:
        return False
    return len(lines) > 1 and lines[0].startswith(b"core ") and lines[1].startswith(b"process ")


def place_of(ring, text):
    segment, word = text.split("|")
    return {"ring": int(ring), "segment": segment, "word": word}


def final_place(text):
    if text == "-" or text.startswith("="):
        return None
    ring, place = text.split(":")
    return place_of(ring, place)


class Schedule:
    """The run of a text of several processes. Raises Refusal where the program refuses it, or runs
    nothing since its audit fails."""

    def __init__(self, program, folder, name):
        self.errors = tempfile.TemporaryFile()
        self.process = subprocess.Popen(
            [str(program), "procs", name],
            cwd=folder,
            stdout=subprocess.PIPE,
            stderr=self.errors,
            encoding="ascii",
        )
        first = self.process.stdout.readline()
        if first != "audit yes\n":
            rest = first + self.process.stdout.read()
            status = self.process.wait()
            self.errors.seek(0)
            raise Refusal(status, rest + self.errors.read().decode("utf-8", "replace"))
        self.text = (pathlib.Path(folder) / name).read_text(encoding="ascii")
        self.name = name
        self.sources = NoSources()
        self.last = {}

    def __enter__(self):
        return self

    def __exit__(self, *_):
        self.process.stdout.close()
        self.process.terminate()
        self.process.wait()
        self.errors.close()

    @property
    def processes(self):
        """The words of each line `process`."""
        lines = self.text.splitlines()
        return [line.split(" ")[1:] for line in lines if line.startswith("process ")]

    @property
    def header(self):
        image = Image(self.text)
        segments, notes = {}, []
        for number, words in enumerate(self.processes):
            image.dbr = dbr_of(int(words[0], 8), int(words[1], 8))
            for segment in image_segments(image):
                known = segments.setdefault(segment.number, segment)
                if known != segment:
                    notes.append(f"Segment {segment.number:05o} of process {number} has other "
                                 "rights or another length than that of the first process, which "
                                 "is shown.")
        first = self.processes[0]
        start = {**place_of(first[3], f"{first[2]}|{first[4]}"), "name": f"{first[2]}|{first[4]}",
                 "file": None, "line": None, "process": 0}
        return JsonTurn({
            "turn": "start", "format": FORMAT, "kind": "processes", "name": self.name,
            "processes": len(self.processes), "frames": image.frames, "start": start,
            "segments": [segment.as_json() for segment in segments.values()],
            "sources": {}, "notes": notes,
        })

    def turns(self, steps):
        """The turns of at most this number of events, and then the end."""
        for number in range(1, steps + 2):
            line = self.process.stdout.readline().rstrip("\n")
            if line.startswith("end "):
                yield EndTurn(number - 1, line, f"The schedule ends after {number - 1} events.")
                return
            if number <= steps:
                yield JsonTurn(self.step(line))
        text = f"The recording ends after {steps} events; the schedule goes on."
        yield EndTurn(steps, None, text)

    def step(self, line):
        process, number, ring, place, word, final, a, q, indicators, outcome = line.split(" ", 9)
        at = place_of(ring, place)
        name = f"{at['segment']}|{int(at['word'], 8):o}"
        instruction = None if word == "-" else disassemble(int(word, 8))
        registers = {"a": a, "q": q, "indicators": indicators}
        before = self.last.get(process, {"a": "0" * 12, "q": "0" * 12, "indicators": "......"})
        self.last[process] = registers
        return {
            "turn": "step", "process": int(process), "number": int(number),
            "at": {**at, "name": name, "file": None, "line": None},
            "instruction": instruction, "word": None if word == "-" else word,
            "trace": line, "registers": registers,
            "changed": [{"register": register, "before": before[register], "after": value}
                        for register, value in registers.items() if value != before[register]],
            "words": [], "account": account_of(process, at, name, instruction, final, outcome),
            "differences": [],
        }


def account_of(process, at, name, instruction, final, outcome):
    """What the trace line says, in words."""
    place = final_place(final)
    what = instruction or "nothing"
    said = [f"Process {process}, in ring {at['ring']}, executes {what} at {name}."]
    references = []
    if place:
        where = f"{place['segment']}|{int(place['word'], 8):o}"
        said.append(f"The final address is {where}, in ring {place['ring']}.")
        references.append({
            "kind": "final", "place": place, "count": 1, "link": None, "question": "",
            "answer": said[-1], "allowed": not outcome.startswith("fault 20"), "fault": None,
            "violation": None, "refused_at": None, "rule": RUN,
        })
    elif final.startswith("="):
        said.append(f"The operand is {final[1:]} itself.")
    said.append("The process goes on." if outcome == "next" else f"The step ends by {outcome}.")
    parts = ["decode", *["chain"] * (len(said) - 2), "end"]
    return {
        "chain": [], "references": references, "final": place, "direct": None, "unknown": None,
        "outcome": {"kind": outcome.split(" ")[0], "trace": outcome, "number": None,
                    "violation": None, "place": None, "text": said[-1], "rule": STEP},
        "sentences": [{"text": text, "rule": RUN, "part": part} for text, part in zip(said, parts)],
    }
