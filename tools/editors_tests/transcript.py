"""Plays a transcript with a server: what is sent, and what must be answered (lsp.txt, dap.txt)."""

import json
import re

from m36lib.protocol.client import NoReply

LINE = re.compile(r"([><!?]) (.*)", re.S)
PLACE = re.compile(r"([\w.]+):(\d+):(\d+)")


def entries_of(path):
    """The entries of a transcript: the number of the line, the mark and the rest. A line that
    begins with a blank continues the one above."""
    found = []
    for number, line in enumerate(path.read_text(encoding="utf-8").split("\n"), 1):
        if line.startswith(" "):
            found[-1][1] += line
        elif line and not line.startswith("#"):
            found.append([number, line])
    for number, line in found:
        match = LINE.fullmatch(line)
        if not match:
            raise ValueError(f"{path.name}:{number}: expected one of > < ! ? and a blank")
        yield number, match[1], match[2]


class Player:
    """Plays a transcript with a client. A subclass knows the messages of its protocol."""

    def __init__(self, client, folder):
        self.client = client
        self.folder = folder
        self.number = 0
        self.wrong = []
        self.known = {}

    def play(self, path):
        """Plays the whole transcript. Returns what is wrong, as lines."""
        answer = None
        for number, mark, rest in entries_of(path):
            try:
                if mark == "<":
                    found = list(self.differences(self.filled(json.loads(rest)), answer))
                else:
                    word, _, text = rest.partition(" ")
                    answer, found = self.play_one(mark, word, self.value_of(text or "null"))
                self.wrong += [f"{path.name}:{number}: {line}" for line in found]
            except NoReply as why:
                return [*self.wrong, f"{path.name}:{number}: {why}"]
            except ValueError as why:
                raise ValueError(f"{path.name}:{number}: {why}") from None
        return self.wrong

    def value_of(self, text):
        """What the text of an entry stands for."""
        place = PLACE.fullmatch(text)
        if place:
            return self.at(place[1], int(place[2]), int(place[3]))
        return self.filled(json.loads(text))

    def filled(self, value):
        """A value with what its texts stand for."""
        if isinstance(value, dict):
            return {name: self.filled(member) for name, member in value.items()}
        if isinstance(value, list):
            return [self.filled(member) for member in value]
        if not isinstance(value, str):
            return value
        if value in self.known:
            return self.known[value]
        if not value.startswith("@"):
            return value.replace("FOLDER", self.folder.as_uri()).replace("PATH", str(self.folder))
        name, *change = value[1:].split("|", 2)
        text = (self.folder / name).read_text(encoding="utf-8")
        if change and change[0] not in text:
            raise ValueError(f"{name} has no {change[0]!r}")
        return text.replace(*change, 1) if change else text

    def differences(self, expected, found, where=""):
        """Where a value does not have what is expected: other members may be there."""
        if isinstance(expected, str) and expected.startswith("=$"):
            self.known[expected[1:]] = found
        elif isinstance(expected, dict) and isinstance(found, dict):
            yield from self.in_object(expected, found, where)
        elif isinstance(expected, list) and isinstance(found, list):
            yield from self.in_list(expected, found, where)
        elif isinstance(expected, str) and expected.startswith("..") and isinstance(found, str):
            if expected[2:] not in found:
                yield f"{where} has no {expected[2:]!r}: {found!r}"
        elif expected != found or type(expected) is not type(found):
            yield f"{where} is {found!r}, not {expected!r}"

    def in_object(self, expected, found, where):
        """The same of an object."""
        for name, member in expected.items():
            if name not in found:
                yield f"{where}.{name} is missing: {found}"
            else:
                yield from self.differences(member, found[name], f"{where}.{name}")

    def in_list(self, expected, found, where):
        """The same of a list; after a first member `..` each of the others must be there."""
        if expected[:1] == [".."]:
            for one in expected[1:]:
                if all(list(self.differences(one, other)) for other in found):
                    yield f"{where} has no member {one}: {found}"
            return
        if len(expected) != len(found):
            yield f"{where} has {len(found)} members, not {len(expected)}: {found}"
        for number, (one, other) in enumerate(zip(expected, found)):
            yield from self.differences(one, other, f"{where}[{number}]")


class LanguagePlayer(Player):
    """Plays a transcript of the Language Server Protocol."""

    def at(self, name, line, column):
        """The parameters of a request about a place."""
        return {"textDocument": {"uri": f"{self.folder.as_uri()}/{name}"},
                "position": {"line": line - 1, "character": column - 1}}

    def play_one(self, mark, method, parameters):
        """Sends a message, or waits for one. Returns the answer and what is wrong."""
        message = {"jsonrpc": "2.0", "method": method, "params": parameters}
        if mark == "?":
            found = self.client.wait_for(lambda it: it.get("method") == method, method)
            return None, list(self.differences(parameters, found["params"], method))
        if mark == "!":
            self.client.send(message)
            return None, []
        self.number += 1
        self.client.send({**message, "id": self.number})
        return self.client.wait_for(lambda it: it.get("id") == self.number, method), []


class DebugPlayer(Player):
    """Plays a transcript of the Debug Adapter Protocol."""

    def at(self, name, line, column):
        raise ValueError("no place is expected here")

    def play_one(self, mark, word, value):
        """Sends a request, or waits for an event. Returns the answer and what is wrong."""
        if mark == "?":
            found = self.client.wait_for(lambda it: it.get("event") == word, word)
            return None, list(self.differences(value or {}, found["body"], word))
        if mark != ">":
            raise ValueError("the adapter takes requests alone")
        self.number += 1
        self.client.send({"seq": self.number, "type": "request", "command": word,
                          "arguments": value or {}})
        return self.client.wait_for(lambda it: it.get("request_seq") == self.number, word), []
