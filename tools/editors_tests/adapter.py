"""Tests of tools/dap36."""

import os
import pathlib
import random
import shutil
import signal
import subprocess
import tempfile
import time

from m36lib import cases
from m36lib.made_folders import FOLDERS
from m36lib.protocol.client import Client, NoReply

from .language import is_running, stub, wait_until
from .transcript import DebugPlayer

HERE = pathlib.Path(__file__).resolve().parent
TOP = HERE.parents[1]
SERVER = TOP / "tools/dap36"
SECONDS = 20
LOOP = " entry b\nb: tra b\n"
BOOT = "frames 24\nwork >u\nsegment >u a a object re 4 4 4\nstart 4 a$b\n"
# The members of requests, and what they may be given.
MEMBERS = {
    "threads": "", "stackTrace": "threadId startFrame levels", "scopes": "frameId",
    "variables": "variablesReference start count", "evaluate": "expression context",
    "disassemble": "memoryReference offset instructionOffset instructionCount",
    "readMemory": "memoryReference offset count", "source": "sourceReference source",
    "setBreakpoints": "source breakpoints", "setFunctionBreakpoints": "breakpoints",
    "setInstructionBreakpoints": "breakpoints", "setDataBreakpoints": "breakpoints",
    "dataBreakpointInfo": "name variablesReference", "setExceptionBreakpoints": "filters",
    "continue": "threadId", "next": "threadId", "stepIn": "threadId", "stepOut": "threadId",
    "stepBack": "threadId granularity", "reverseContinue": "threadId", "pause": "threadId",
    "exceptionInfo": "threadId", "restart": "", "cancel": "requestId",
}
VALUES = (
    None, True, 1, 0, -1, 5, 67, 2**40, 1.5, "a", "", "\0", "pr2", "0x8000000", "-0x1",
    "main$start", "00100|000000", "(" * 200, "a +", "main$start+", "\u00e9|0", [], [1], {},
    {"path": "x"}, {"sourceReference": 67}, {"sourceReference": -5}, [{"line": 1}], [{"line": -1}],
    [{"name": "main$start"}], [{"dataId": "a"}], [{"instructionReference": "0x8000000"}],
    [{"instructionReference": "0x8000000", "offset": -(10**12)}],
)


def assembled(program, example, room):
    """A copy of an example, assembled."""
    folder = pathlib.Path(room) / example
    shutil.copytree(TOP / "examples" / example, folder)
    for source in folder.glob("*.alm"):
        subprocess.run([program, "alm", source.stem], cwd=folder, capture_output=True, check=True)
    return folder.resolve()


class Editor(Client):
    """A client that debugs."""

    def __init__(self, program):
        super().__init__([SERVER], {"M36_PROGRAM": str(program)})
        self.number = 0

    def request(self, command, **arguments):
        """Sends a request. Its answer."""
        self.number += 1
        number = self.number
        self.send({"seq": number, "type": "request", "command": command, "arguments": arguments})
        return self.wait_for(lambda it: it.get("request_seq") == number, command)

    def event(self, name):
        """The body of the next event of this name."""
        return self.wait_for(lambda it: it.get("event") == name, name)["body"]

    def begin(self, what, **arguments):
        """Begins a session, up to its first stop."""
        self.request("initialize", adapterID="m36")
        answer = self.request("launch", program=str(what), **arguments)
        if answer["success"]:
            self.event("initialized")
            self.request("configurationDone")
        return answer

    def move(self, command):
        """Makes a move. The body of the stop."""
        answer = self.request(command, threadId=1)
        if not answer["success"]:
            raise NoReply(answer["message"])
        return self.event("stopped")

    def place(self):
        """The ring and the address of the innermost frame."""
        frame = self.request("stackTrace", threadId=1, levels=1)["body"]["stackFrames"][0]
        return int(frame["name"][-1]), int(frame["instructionPointerReference"], 16) // 8


def transcript(program):
    """The transcript of dap.txt."""
    with tempfile.TemporaryDirectory() as room:
        folder = assembled(program, "servant", room)
        with Editor(program) as client:
            wrong = DebugPlayer(client, folder).play(HERE / "dap.txt")
            status = client.process.wait(SECONDS) if not wrong else 0
        if status:
            wrong.append(f"the status after disconnect is {status}")
        if client.errors:
            wrong.append(f"standard error: {client.errors.decode()[-300:]}")
    return wrong


def places_of(program, words, folder):
    """The ring and the address of each step of a trace of the program, without those that a link
    took and that are taken again."""
    lines = subprocess.run([program, *words], cwd=folder, capture_output=True,
                           text=True).stdout.splitlines()
    for line in lines:
        if line[0].isdigit():
            fields = line.split(" ")
            segment, word = fields[2].split("|")
            yield int(fields[1]), int(segment, 8) << 18 | int(word, 8)


def both_ways(program):
    """Each step forward and back is at the places of the program's own trace."""
    wrong = []
    cases = [(name, "", ["trace"]) for name in ("servant", "factorial", "search")]
    cases += [(name, name, ["bare", "--unaudited", name]) for name in ("least", "segments")]
    for example, image, words in cases:
        with tempfile.TemporaryDirectory() as room, Editor(program) as client:
            folder = assembled(program, example, room)
            expected = list(places_of(program, words, folder))
            answer = client.begin(folder / image)
            if not answer["success"]:
                wrong.append(f"{example}: {answer['message']}")
                continue
            client.event("stopped")
            found = [client.place()]
            while len(found) < len(expected):
                client.move("stepIn")
                found.append(client.place())
            if found != expected:
                wrong.append(f"{example}: forward {found}, not {expected}")
            back = found[-1:]
            while len(back) < len(expected):
                client.request("stepBack", threadId=1, granularity="instruction")
                client.event("stopped")
                back.append(client.place())
            if back[::-1] != expected:
                wrong.append(f"{example}: back {back[::-1]}, not {expected}")
    return wrong


def answers_of_the_program(program):
    """With the answers of the program changed on the way, the changed ones are shown."""
    changes = "s/^a [0-7]*/a 123412341234/;s/^00102|000000 .*/00102|000000 765432101234/"
    wrong = []
    with tempfile.TemporaryDirectory() as room:
        folder = assembled(program, "servant", room)
        changed = stub(room, f'case $1 in debug) {program} "$@" | sed -u "{changes}" ;; '
                             f'*) exec {program} "$@" ;; esac')
        with Editor(changed) as client:
            client.begin(folder)
            for expression, expected in (("a", "123412341234"), ("[secret|0]", "765432101234"),
                                         ("q", "000000000000")):
                found = client.request("evaluate", expression=expression)
                if found.get("body", {}).get("result") != expected:
                    wrong.append(f"{expression} is shown as {found}")
    return wrong


def children_of(number):
    """The processes that a process has started and that run."""
    found = []
    for path in pathlib.Path("/proc").glob("[0-9]*/stat"):
        try:
            fields = path.read_text().rpartition(")")[2].split()
        except OSError:
            continue
        if int(fields[1]) == number:
            found.append(int(path.parent.name))
    return found


def nothing_is_left(program):
    """However a session ends, no process of it is left: also while the run goes on."""
    wrong = []
    with tempfile.TemporaryDirectory() as room:
        folder = pathlib.Path(room) / "loop"
        folder.mkdir()
        (folder / "a.alm").write_text(LOOP)
        (folder / "boot").write_text(BOOT)
        subprocess.run([program, "alm", "a"], cwd=folder, capture_output=True, check=True)
        for end in (signal.SIGKILL, signal.SIGTERM, signal.SIGINT, "disconnect", "end"):
            for is_moving in (False, True):
                with Editor(program) as client:
                    client.begin(folder)
                    client.event("stopped")
                    if is_moving:
                        client.request("continue", threadId=1)
                    children = children_of(client.process.pid)
                    if end == "disconnect":
                        client.request("disconnect")
                    elif end == "end":
                        client.process.stdin.close()
                    else:
                        client.process.send_signal(end)
                    client.process.wait(SECONDS)
                if not children or not wait_until(lambda: not any(map(is_running, children))):
                    wrong.append(f"after {end}, moving {is_moving}: {children} are left")
    return wrong


def paused_and_changed(program):
    """A run that goes on for long answers requests, takes breakpoints and is paused."""
    wrong = []
    with tempfile.TemporaryDirectory() as room, Editor(program) as client:
        folder = pathlib.Path(room)
        (folder / "a.alm").write_text(" entry b\nb: tra c\nc: ada 1,dl\n cmpa 0,du\n tra c\n")
        (folder / "boot").write_text(BOOT)
        subprocess.run([program, "alm", "a"], cwd=folder, capture_output=True, check=True)
        client.begin(folder)
        client.event("stopped")
        for command in ("continue", "next", "stepOut"):
            began = time.monotonic()
            answer = client.request(command, threadId=1)
            if command == "stepOut":
                if answer["success"]:
                    wrong.append("a step out of no call")
                continue
            if command == "next":
                client.event("stopped")
                continue
            client.request("threads")
            client.request("pause", threadId=1)
            stop = client.event("stopped")
            if stop["reason"] != "pause" or time.monotonic() - began > SECONDS:
                wrong.append(f"{command}: {stop}")
        client.kept.clear()
        client.request("continue", threadId=1)
        client.request("setBreakpoints", source={"path": str(folder.resolve() / "a.alm")},
                       breakpoints=[{"line": 4}])
        stop = client.event("stopped")
        if stop["reason"] != "breakpoint":
            wrong.append(f"a breakpoint that is set while the run goes on: {stop}")
    return wrong


def refused(program):
    """What the program refuses is said with its line and its sentence, and the editor may go on."""
    wrong = []
    with tempfile.TemporaryDirectory() as room:
        folder = pathlib.Path(room)
        (folder / "image").write_text("core 0\n")
        (folder / "boot").write_text(BOOT.replace("4 4 4", "4 3 4"))
        with Editor(program) as client:
            for what, code in ((folder, "m36: BadFile boot D4 3 0: the ring brackets do not fit"),
                               (folder / "image", "m36: BadFile image I2 1 0")):
                answer = client.begin(what)
                if answer["success"] or code not in answer["message"]:
                    wrong.append(f"{what.name}: {answer}")
            if client.request("disconnect")["success"] is not True or client.process.wait(SECONDS):
                wrong.append("no end after a refusal")
        with Editor("/none") as client:
            answer = client.begin(folder)
            if answer["success"] or "M36_PROGRAM" not in answer["message"]:
                wrong.append(f"without a program: {answer}")
    return wrong


def dies(program):
    """A program that ends in the middle of a session ends it, and a message says so."""
    wrong = []
    with tempfile.TemporaryDirectory() as room:
        folder = assembled(program, "servant", room)
        dying = stub(room, f'case $1 in debug) dd bs=1 count=150 status=none | {program} "$@" ;; '
                           f'*) exec {program} "$@" ;; esac')
        with Editor(dying) as client:
            client.begin(folder)
            for _ in range(30):
                client.request("stackTrace", threadId=1)
                client.request("stepIn", threadId=1)
            client.event("terminated")
            if client.request("disconnect")["success"] is not True:
                wrong.append("no end after the program has ended")
            client.process.wait(SECONDS)
        if b"Traceback" in client.errors:
            wrong.append(client.errors.decode()[-300:])
    return wrong


def hangs(program):
    """A program that does not answer is ended with the session."""
    wrong = []
    with tempfile.TemporaryDirectory() as room:
        folder = assembled(program, "servant", room)
        with Editor(stub(room, "exec sleep 99")) as client:
            client.request("initialize", adapterID="m36")
            client.send({"seq": 9, "type": "request", "command": "launch",
                         "arguments": {"program": str(folder)}})
            wait_until(lambda: children_of(client.process.pid))
            children = children_of(client.process.pid)
            client.process.terminate()
            try:
                client.process.wait(SECONDS)
            except subprocess.TimeoutExpired:
                wrong.append("the adapter does not end")
        if not children or not wait_until(lambda: not any(map(is_running, children))):
            wrong.append(f"a program that hangs is left: {children}")
        for child in filter(is_running, children):
            os.kill(child, signal.SIGKILL)
    return wrong


def folder_of_a_text(program):
    """A source or a boot text means its folder."""
    wrong = []
    with tempfile.TemporaryDirectory() as room:
        folder = assembled(program, "servant", room)
        for name in ("boot", "gate_.alm"):
            with Editor(program) as client:
                answer = client.begin(folder / name)
                if not answer["success"] or client.event("stopped")["reason"] != "entry":
                    wrong.append(f"{name}: {answer}")
    return wrong


def unsure(program):
    """After ABSA the console says once that going back is not sure."""
    made = next(folder for folder in FOLDERS if folder.name == "ABSA and LDBR")
    with tempfile.TemporaryDirectory() as room, Editor(program) as client:
        folder = pathlib.Path(room) / "loaded"
        cases.make_folder(program, folder, made)
        client.begin(folder)
        client.event("stopped")
        for _ in range(3):
            client.move("stepIn")
        said = [it for it in client.kept if "not sure" in it.get("body", {}).get("output", "")]
        return [] if len(said) == 1 else [f"it is said {len(said)} times"]


def drawn_requests(program):
    """Requests with members of any kind: each is answered, and nothing breaks."""
    draw = random.Random(36)
    with tempfile.TemporaryDirectory() as room, Editor(program) as client:
        client.begin(assembled(program, "servant", room))
        client.event("stopped")
        for _ in range(400):
            command = draw.choice(list(MEMBERS))
            arguments = {name: draw.choice(VALUES) for name in MEMBERS[command].split()}
            if "threadId" in arguments and draw.random() < 0.8:
                arguments["threadId"] = 1
            client.request(command, **arguments)
            client.kept.clear()
        client.end()
    return [client.errors.decode()[-500:]] if client.errors else []


def stale(program):
    """An object that is not of its source is named, and lines of it are refused."""
    with tempfile.TemporaryDirectory() as room, Editor(program) as client:
        folder = assembled(program, "servant", room)
        with open(folder / "main.alm", "a", encoding="ascii") as source:
            source.write(" nop 0\n")
        client.begin(folder)
        said = client.event("output")
        answer = client.request("setBreakpoints", source={"path": str(folder / "main.alm")},
                                breakpoints=[{"line": 3}])
        found = answer["body"]["breakpoints"][0]
        if "main.alm" not in said["output"] or said["category"] != "important":
            return [f"the message is {said}"]
        return [] if not found["verified"] and "main.alm" in found["message"] else [str(found)]


TESTS = (
    transcript, both_ways, answers_of_the_program, nothing_is_left, paused_and_changed, refused,
    dies, hangs, folder_of_a_text, unsure, drawn_requests, stale,
)
