"""Tests of tools/lsp36."""

import os
import pathlib
import random
import shutil
import signal
import tempfile
import time

from m36lib.language.definitions import Definitions
from m36lib.language.documents import Workspace, uri_of
from m36lib.language.hovers import Hovers
from m36lib.protocol.client import Client

from .transcript import LanguagePlayer

HERE = pathlib.Path(__file__).resolve().parent
TOP = HERE.parents[1]
SERVER = TOP / "tools/lsp36"
SECONDS = 20
# What comes into a text that is being written.
PIECES = (
    "a", "b:", "*", "+", "-", "|", "$", ",", '"', " ", "\t", "\n", "\r", "\r\n", "pr6", "*text$",
    "con_$write", "12", "9" * 20, "dl", "\u00e9", "\U0001f600", "\0", "equ ", "use ",
    "aci ", " oct ", "segment ", "start 4 ", "main",
)


def start(program, **environment):
    """The server with a program."""
    return Client([SERVER], {"M36_PROGRAM": str(program), **environment})


def sources_of(example, room):
    """A copy of the sources of an example."""
    folder = pathlib.Path(room) / example
    shutil.copytree(TOP / "examples" / example, folder)
    return folder


def opened(client, path, text):
    """Opens a text, and returns the first report about it."""
    if not client.is_ready:
        client.send({"jsonrpc": "2.0", "id": 0, "method": "initialize",
                     "params": {"capabilities": {}}})
        client.wait_for(lambda it: it.get("id") == 0, "initialize")
        client.send({"jsonrpc": "2.0", "method": "initialized", "params": {}})
        client.is_ready = True
    document = {"uri": path.as_uri(), "languageId": "alm", "version": 1, "text": text}
    client.send({"jsonrpc": "2.0", "method": "textDocument/didOpen",
                 "params": {"textDocument": document}})
    return client.wait_for(lambda it: it.get("method") == "textDocument/publishDiagnostics",
                           "a report")["params"]["diagnostics"]


def files_of(folder):
    """The time of a folder, which a new file changes, and its files with their bytes and times."""
    files = {path: (path.read_bytes(), path.stat().st_mtime_ns)
             for path in sorted(folder.rglob("*")) if path.is_file()}
    return folder.stat().st_mtime_ns, files


def transcript(program):
    """The transcript of lsp.txt, and nothing written in the folder."""
    with tempfile.TemporaryDirectory() as room:
        folder = sources_of("say", room)
        before = files_of(folder)
        with start(program) as client:
            wrong = LanguagePlayer(client, folder).play(HERE / "lsp.txt")
            status = client.end()
        if status:
            wrong.append(f"the status after exit is {status}")
        if client.errors:
            wrong.append(f"standard error: {client.errors.decode()[-300:]}")
        if files_of(folder) != before:
            wrong.append("the folder was written")
    return wrong


def stub(room, script):
    """A program that is a shell script."""
    path = pathlib.Path(room) / "stub"
    path.write_text(f"#!/bin/sh\n{script}\n", encoding="utf-8")
    path.chmod(0o755)
    return path


def examples_are_right(program):
    """No source and no boot text of the examples is reported."""
    wrong = []
    with start(program) as client:
        for path in sorted(TOP.glob("examples/*/*")):
            if path.suffix == ".alm" or path.name == "boot":
                found = opened(client, path, path.read_text(encoding="utf-8"))
                wrong += [f"{path.relative_to(TOP)}: {it['message']}" for it in found]
    return wrong


def answers_of_the_program(_program):
    """What the program answers is reported, and nothing else."""
    wrong = []
    with tempfile.TemporaryDirectory() as room:
        path = pathlib.Path(room) / "a.alm"
        says = stub(room, 'echo "m36: BadFile source.alm E6 2 3" >&2; exit 4')
        with start(says) as client:
            found = opened(client, path, " nop\n nop 0\n")
        if [(it["code"], it["range"]["start"]) for it in found] != [
                ("E6", {"line": 1, "character": 2})]:
            wrong.append(f"a program that refuses: {found}")
        for script in ("exit 70", "echo BadFile >&2; exit 4", "kill -9 $$"):
            with start(stub(room, script)) as client:
                found = opened(client, path, " absent\n")
                if found:
                    wrong.append(f"{script}: {found}")
                client.wait_for(lambda it: it.get("method") == "window/logMessage", "a log")
    return wrong


def bind_files_in_a_circle(program):
    """Bind files that name each other: the file that nothing makes is reported as absent."""
    with tempfile.TemporaryDirectory() as room:
        folder = pathlib.Path(room)
        (folder / "a.bind").write_text("object b\n")
        (folder / "b.bind").write_text("object a\n")
        boot = "frames 24\nwork >udd\nsegment >udd main a object re 4 4 4\nstart 4 main$start\n"
        with start(program) as client:
            found = opened(client, folder / "boot", boot)
    places = [(it["code"], it["range"]["start"]) for it in found]
    column = len("segment >udd main ")
    return [] if places == [("F1", {"line": 2, "character": column})] else [f"it says {found}"]


def without_a_program(_program):
    """Without a program a message says so, and rules are shown nevertheless."""
    with tempfile.TemporaryDirectory() as room:
        path = pathlib.Path(room) / "a.alm"
        with start(f"{room}/none") as client:
            client.send({"jsonrpc": "2.0", "id": 0, "method": "initialize", "params": {}})
            client.send({"jsonrpc": "2.0", "method": "initialized", "params": {}})
            found = client.wait_for(
                lambda it: it.get("method") == "window/showMessage", "a message")
            if "M36_PROGRAM" not in found["params"]["message"]:
                return [f"no reason: {found}"]
            client.send({"jsonrpc": "2.0", "method": "textDocument/didOpen", "params": {
                "textDocument": {"uri": path.as_uri(), "version": 1, "text": " lda 0\n"}}})
            client.send({"jsonrpc": "2.0", "id": 1, "method": "textDocument/hover", "params": {
                "textDocument": {"uri": path.as_uri()}, "position": {"line": 0, "character": 2}}})
            found = client.wait_for(lambda it: it.get("id") == 1, "a hover")
            return [] if "result" in found and found["result"] else [f"no hover: {found}"]


def is_running(number):
    """Whether a process runs."""
    try:
        os.kill(number, 0)
    except ProcessLookupError:
        return False
    return pathlib.Path(f"/proc/{number}/stat").read_text().rpartition(")")[2].split()[0] != "Z"


def wait_until(holds):
    """Whether something holds within some seconds."""
    until = time.monotonic() + SECONDS
    while not holds() and time.monotonic() < until:
        time.sleep(0.05)
    return holds()


def ended_while_it_checks(_program):
    """A server that a signal ends while the program runs leaves no process and no folder."""
    wrong = []
    for number in (signal.SIGTERM, signal.SIGHUP, signal.SIGINT):
        with tempfile.TemporaryDirectory() as room:
            mark, folders = pathlib.Path(room) / "mark", pathlib.Path(room) / "folders"
            folders.mkdir()
            program = stub(room, f"echo $$ > {mark}.new; mv {mark}.new {mark}; exec sleep 99")
            with start(program, TMPDIR=str(folders)) as client:
                client.send({"jsonrpc": "2.0", "id": 0, "method": "initialize", "params": {}})
                client.send({"jsonrpc": "2.0", "method": "textDocument/didOpen", "params": {
                    "textDocument": {"uri": f"file://{room}/a.alm", "text": " lda 0\n"}}})
                if not wait_until(mark.exists):
                    return ["the program was not run"]
                client.process.send_signal(number)
                status = client.process.wait(SECONDS)
            child = int(mark.read_text())
            if not wait_until(lambda: not is_running(child)):  # pylint: disable=W0640
                wrong.append(f"signal {number}: the program still runs")
                os.kill(child, signal.SIGKILL)
            if status != 128 + number or any(folders.iterdir()):
                wrong.append(f"signal {number}: status {status}, {list(folders.iterdir())}")
    return wrong


def long_and_foreign_texts(program):
    """A long text, one with every byte, and names that are no names of m36."""
    wrong = []
    with tempfile.TemporaryDirectory() as room, start(program) as client:
        texts = {
            "long.alm": " lda 1\n" * 100_000 + " lda ,\n",
            "a b.alm": "\0\1\r\ud800 \u2028\n",
            "-x'$(touch y).alm": " lda absent\n",
            f"{'n' * 90}.alm": " lda absent\n",
        }
        found = [opened(client, pathlib.Path(room) / name, text) for name, text in texts.items()]
        codes = [[it["code"] for it in reports] for reports in found]
        if codes != [["E2"], ["E1"], ["E6"], ["E6"]]:
            wrong.append(f"codes {codes}")
        if found[0] and found[0][0]["range"]["start"] != {"line": 100_000, "character": 5}:
            wrong.append(f"the place in a long text: {found[0]}")
        if list(pathlib.Path(room).iterdir()):
            wrong.append("something was written")
    return wrong


def drawn_text(draw, text):
    """A text in which some pieces are lost, and others come in."""
    for _ in range(draw.randrange(1, 5)):
        place = draw.randrange(len(text) + 1)
        put = "".join(draw.choice(PIECES) for _ in range(draw.randrange(3)))
        text = text[:place] + put + text[place + draw.randrange(8) :]
    return text


def texts_that_are_written(_program):
    """Half-written texts: hovers and definitions at any place do not break, and places are the same
    on the way to the client and back."""
    draw = random.Random(36)
    folder = TOP / "examples/say"
    for _ in range(300):
        workspace = Workspace()
        for name in ("main.alm", "boot"):
            text = drawn_text(draw, (folder / name).read_text(encoding="utf-8"))
            workspace.put(uri_of(folder / name), text, 1)
        for document in workspace.documents.values():
            for _ in range(8):
                position = {"line": draw.randrange(12), "character": draw.randrange(40)}
                place = document.place_at(position)
                if document.place_at(document.position_of(place)) != place:
                    return [f"{document.data!r}: place {place} is another one on the way back"]
                for found in Definitions(workspace, document).at(place):
                    found.location()
                Hovers(workspace, document).at(place)
    return []


TESTS = (
    transcript, examples_are_right, answers_of_the_program, bind_files_in_a_circle,
    without_a_program, ended_while_it_checks, long_and_foreign_texts, texts_that_are_written,
)
