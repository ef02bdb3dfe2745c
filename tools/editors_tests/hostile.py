"""Tests of both servers with input that is no message: each is answered by the error of its
protocol, and the server goes on."""

import concurrent.futures
import os
import pathlib
import random
import subprocess

from m36lib.protocol.client import Client, NoReply
from m36lib.protocol.messages import bytes_of

TOP = pathlib.Path(__file__).resolve().parents[2]
LSP, DAP = TOP / "tools/lsp36", TOP / "tools/dap36"
SECONDS = 30
PARSE_ERROR, INVALID_REQUEST = -32700, -32600


def framed(data):
    """Bytes with the header of a message."""
    return b"Content-Length: %d\r\n\r\n%b" % (len(data), data)


# What is written, and the error of the language server.
INPUTS = (
    (b"hello\r\n\r\n", PARSE_ERROR),
    (b"Content-Type: x\r\n\r\n{}", PARSE_ERROR),
    (b"Content-Length: -1\r\n\r\n", PARSE_ERROR),
    (b"Content-Length: x\r\n\r\n{}\r\n", PARSE_ERROR),
    (b"Content-Length: 2\r\nContent-Length: 2\r\n\r\n{}\r\n", PARSE_ERROR),
    (b"Content-Length: 99999999\r\n\r\n", PARSE_ERROR),
    (b"Content-Length: " + b"9" * 30 + b"\r\n\r\n", PARSE_ERROR),
    (b"A: b\r\n" * 100 + b"\r\n", PARSE_ERROR),
    (b"A: " + b"b" * 100_000 + b"\r\n\r\n", PARSE_ERROR),
    (b"\xff\xfe\r\n\r\n", PARSE_ERROR),
    (framed(b""), PARSE_ERROR),
    (framed(b"{"), PARSE_ERROR),
    (framed(b"\xff"), PARSE_ERROR),
    (framed(b'{"id": NaN}'), PARSE_ERROR),
    (framed(b'{"id": ' + b"9" * 9999 + b"}"), PARSE_ERROR),
    (framed(b"[" * 100_000), PARSE_ERROR),
    (framed(b"[]"), INVALID_REQUEST),
    (framed(b"1"), INVALID_REQUEST),
    (framed(b"null"), INVALID_REQUEST),
    (framed(b"{}"), INVALID_REQUEST),
    (framed(b'{"method": 1, "id": 1}'), INVALID_REQUEST),
    (framed(b'{"method": "x", "id": {}}'), INVALID_REQUEST),
    (framed(b'{"method": "x", "id": true}'), INVALID_REQUEST),
    (framed(b'{"method": "x", "id": null}'), INVALID_REQUEST),
)
# The same for the debug adapter, which answers each by a response that is no success.
REQUESTS = (
    b'{"seq": 1, "type": "request"}',
    b'{"seq": 1, "type": "request", "command": 1}',
    b'{"seq": "1", "type": "request", "command": "threads"}',
    b'{"seq": true, "type": "request", "command": "threads"}',
    b'{"type": "request", "command": "threads"}',
    b'{"seq": 1, "type": "event", "event": "x"}',
    b'{"seq": 1, "type": "request", "command": "none"}',
    b'{"seq": 1, "type": "request", "command": "threads", "arguments": [1]}',
    b'{"seq": 1, "type": "request", "command": "launch"}',
    b'{"seq": 1, "type": "request", "command": "launch", "arguments": {"program": 1}}',
    b'{"seq": 1, "type": "request", "command": "launch", "arguments": {"program": "\\u0000"}}',
    b'{"seq": 1, "type": "request", "command": "launch", "arguments": {"program": "/none"}}',
    b'{"seq": 1, "type": "request", "command": "next", "arguments": {"threadId": 1}}',
    b'{"seq": 1, "type": "request", "command": "stackTrace", "arguments": {"threadId": 1}}',
)


def environment(program):
    return {"M36_PROGRAM": str(program)}


def language_server(program):
    """Each input of INPUTS, one after another, and a request after each."""
    wrong = []
    with Client([LSP], environment(program)) as client:
        for number, (data, code) in enumerate(INPUTS):
            client.write(data)
            client.send({"jsonrpc": "2.0", "id": number, "method": "shutdown"})
            try:
                found = client.wait_for(lambda it: it.get("id") is None, f"{data[:40]!r}")
                client.wait_for(lambda it: it.get("id") == number, "a request after it")
            except NoReply as why:
                return [*wrong, str(why)]
            if found.get("error", {}).get("code") != code:
                wrong.append(f"{data[:40]!r}: {found}")
        if client.kept:
            wrong.append(f"further answers: {client.kept}")
    return wrong


def debug_adapter(program):
    """The same with the debug adapter."""
    wrong = []
    inputs = [data for data, _ in INPUTS] + [framed(data) for data in REQUESTS]
    with Client([DAP], environment(program)) as client:
        for number, data in enumerate(inputs, 100):
            client.write(data)
            client.send({"seq": number, "type": "request", "command": "initialize",
                         "arguments": {"adapterID": "m36"}})
            try:
                found = client.wait_for(lambda it: it.get("request_seq") in (0, 1), f"{data[:60]}")
                client.wait_for(lambda it: it.get("request_seq") == number, "a request after it")
            except NoReply as why:
                return [*wrong, str(why)]
            if found["type"] != "response" or found["success"] or not found.get("message"):
                wrong.append(f"{data[:60]!r}: {found}")
    return wrong


def piped(words, data, program, **settings):
    """A server whose input is these bytes and then ends."""
    done = subprocess.run(words, input=data, capture_output=True, timeout=SECONDS,
                          env={**os.environ, **environment(program)}, **settings)
    return done.returncode, done.stdout, done.stderr


def all_of(one, cases):
    """What is wrong by each of the cases, some of which run side by side."""
    with concurrent.futures.ThreadPoolExecutor(os.cpu_count()) as pool:
        return [line for lines in pool.map(lambda case: one(*case), cases) for line in lines]


def cut_off(program):
    """The input ends at each place of a message: an error, status 1, and no more."""
    message = bytes_of({"jsonrpc": "2.0", "id": 1, "method": "initialize", "params": {},
                        "seq": 1, "type": "request", "command": "initialize"})

    def one(server, length):
        status, output, errors = piped([server], message[:length], program)
        said = b"the input ends" in output if length else not output
        if status != 1 or not said or errors:
            yield f"{server.name} after {length} bytes: {status} {output} {errors}"

    lengths = (0, 1, 20, 21, 30, len(message) - 1)
    return all_of(one, [(server, length) for server in (LSP, DAP) for length in lengths])


def drawn(program):
    """Random bytes, and messages in which bytes were changed: no server breaks."""
    draw = random.Random(36)
    whole = b"".join(bytes_of({"jsonrpc": "2.0", "id": number, "method": method, "params": {},
                               "seq": number, "type": "request", "command": method})
                     for number, method in enumerate(("initialize", "textDocument/hover", "launch",
                                                      "threads", "next", "shutdown")))

    def changed():
        data = bytearray(whole * 3)
        for _ in range(draw.randrange(1, 40)):
            data[draw.randrange(len(data))] = draw.randrange(256)
        return bytes(data)

    def one(server, data):
        status, _, errors = piped([server], data, program)
        if status not in (0, 1) or errors:
            yield f"{server.name}: {data[:99]!r}: status {status}, {errors[-300:]}"

    inputs = [changed() for _ in range(6)] + [draw.randbytes(2000)]
    return all_of(one, [(server, data) for server in (LSP, DAP) for data in inputs])


def no_reader(program):
    """An editor that is gone: status 3, and no lines."""
    wrong = []
    message = bytes_of({"jsonrpc": "2.0", "id": 1, "method": "initialize", "params": {},
                        "seq": 1, "type": "request", "command": "initialize"})
    for server in (LSP, DAP):
        read, write = os.pipe()
        os.close(read)
        child = subprocess.Popen([server], stdin=subprocess.PIPE, stdout=write,
                                 stderr=subprocess.PIPE, env={**os.environ, **environment(program)})
        os.close(write)
        _, errors = child.communicate(message, SECONDS)
        if child.returncode != 3 or errors:
            wrong.append(f"{server.name}: status {child.returncode}, {errors}")
    return wrong


def words(_program):
    """Words that are wrong, and the help."""
    def one(server, given, expected):
        status = piped([server, *given], b"", "none")[0]
        if status != expected:
            yield f"{server.name} {given}: status {status}"

    cases = ((["--help"], 0), (["-h"], 0), (["x"], 2), (["--stdio", "x"], 2), (["--stdio"], 1))
    return all_of(one, [(server, *case) for server in (LSP, DAP) for case in cases])


TESTS = (language_server, debug_adapter, cut_off, drawn, no_reader, words)
