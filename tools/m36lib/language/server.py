"""The language server: takes the messages of an editor and answers them.

Texts are checked when no message waits, so that a text that is typed quickly is checked once."""

import sys
import traceback

from ..protocol.inbox import END
from ..protocol.members import WrongMember, count, is_of, member, objects, optional
from ..protocol.messages import BadMessage
from ..protocol.serve import NoReader
from ..shown import plain
from .checks import NoAnswer, check, is_about
from .definitions import Definitions
from .documents import Workspace
from .hovers import Hovers, markdown

PARSE_ERROR, INVALID_REQUEST, UNKNOWN_METHOD = -32700, -32600, -32601
WRONG_PARAMETERS, INTERNAL_ERROR, NOT_INITIALIZED = -32602, -32603, -32002
CANCELLED = -32800
FULL_TEXT = 1
ERROR_MESSAGE, LOG_MESSAGE = 1, 4
CAPABILITIES = {
    "textDocumentSync": {"openClose": True, "change": FULL_TEXT, "save": True},
    "definitionProvider": True,
    "hoverProvider": True,
}


class RequestRefused(Exception):
    """An error answer: its code and its text."""

    def __init__(self, code, text):
        super().__init__(text)
        self.code = code


class Server:
    """One session with an editor."""

    def __init__(self, program, why_none, inbox, output):
        self.program = program
        self.why_none = why_none
        self.inbox = inbox
        self.output = output
        self.workspace = Workspace()
        self.unchecked = {}
        self.is_initialized = False
        self.is_shut_down = False
        self.requests = {
            "initialize": self.initialize,
            "shutdown": self.shutdown,
            "textDocument/definition": self.definition,
            "textDocument/hover": self.hover,
        }
        self.notifications = {
            "initialized": self.initialized,
            "textDocument/didOpen": self.did_open,
            "textDocument/didChange": self.did_change,
            "textDocument/didSave": self.did_save,
            "textDocument/didClose": self.did_close,
        }

    def run(self):
        """Answers up to `exit` or the end of the input. Returns the exit status."""
        while True:
            item = self.inbox.take(is_waited_for=not self.unchecked)
            if item is None:
                self.check_one()
            elif item is END:
                return 0 if self.is_shut_down else 1
            elif isinstance(item, BadMessage):
                self.send_error(None, INVALID_REQUEST if item.is_json else PARSE_ERROR, str(item))
            elif item.get("method") == "exit":
                return 0 if self.is_shut_down else 1
            else:
                self.take(item)

    def close(self):
        """Nothing is left running."""

    # Messages.

    def send(self, message):
        """Writes a message."""
        self.output.send({"jsonrpc": "2.0", **message})

    def send_error(self, number, code, text):
        """Answers a request with an error."""
        self.send({"id": number, "error": {"code": code, "message": text}})

    def notify(self, method, parameters):
        """Sends a notification."""
        self.send({"method": method, "params": parameters})

    def take(self, message):
        """Takes a request or a notification. An answer is to nothing that was asked."""
        if "method" not in message and ("result" in message or "error" in message):
            return
        number, method = message.get("id"), message.get("method")
        if not isinstance(method, str) or "id" in message and not is_of(number, (int, str)):
            self.send_error(None, INVALID_REQUEST, "expected a method, and a number or text as id")
        elif "id" in message:
            self.answer(number, method, message.get("params"))
        else:
            self.take_notification(method, message.get("params"))

    def answer(self, number, method, parameters):
        """Answers a request."""
        try:
            result = self.result_of(number, method, parameters)
        except RequestRefused as why:
            self.send_error(number, why.code, str(why))
        except WrongMember as why:
            self.send_error(number, WRONG_PARAMETERS, f"{method}: {why}")
        except NoReader:
            raise
        except Exception as why:  # pylint: disable=broad-except
            traceback.print_exc(file=sys.stderr)
            self.send_error(number, INTERNAL_ERROR, f"{type(why).__name__}: {why}")
        else:
            self.send({"id": number, "result": result})

    def result_of(self, number, method, parameters):
        """The result of a request."""
        if self.is_shut_down:
            raise RequestRefused(INVALID_REQUEST, "the server is shut down")
        if not self.is_initialized and method != "initialize":
            raise RequestRefused(NOT_INITIALIZED, "expected initialize first")
        if self.is_cancelled(number):
            raise RequestRefused(CANCELLED, "the request was cancelled")
        if method not in self.requests:
            raise RequestRefused(UNKNOWN_METHOD, f"there is no method {plain(method)}")
        return self.requests[method](parameters)

    def is_cancelled(self, number):
        """Whether a message that waits cancels a request."""
        def matches(item):
            parameters = item.get("params") if isinstance(item, dict) else None
            return (isinstance(parameters, dict) and item.get("method") == "$/cancelRequest"
                    and is_of(number, type(parameters.get("id"))) and parameters["id"] == number)
        return self.inbox.any(matches)

    def take_notification(self, method, parameters):
        """Takes a notification; what is wrong with it is logged, since it has no answer."""
        if not self.is_initialized or method not in self.notifications:
            return
        try:
            self.notifications[method](parameters)
        except WrongMember as why:
            self.log(f"{method}: {why}")
        except NoReader:
            raise
        except Exception as why:  # pylint: disable=broad-except
            self.broken(method, why)

    def broken(self, what, why):
        """Something in the server broke: it goes on, and says so."""
        traceback.print_exc(file=sys.stderr)
        self.log(f"{what}: {type(why).__name__}: {why}")

    def log(self, text):
        """A line for the editor's log."""
        self.notify("window/logMessage", {"type": LOG_MESSAGE, "message": text})

    # Requests.

    def initialize(self, parameters):
        if self.is_initialized:
            raise RequestRefused(INVALID_REQUEST, "initialize is given twice")
        if not isinstance(parameters, dict):
            raise WrongMember("params is missing or is not an object")
        self.is_initialized = True
        return {"capabilities": CAPABILITIES, "serverInfo": {"name": "m36-lsp"}}

    def initialized(self, _parameters):
        """The session begins: a missing program is reported once."""
        if not self.program:
            self.notify("window/showMessage", {"type": ERROR_MESSAGE, "message": self.why_none})

    def shutdown(self, _parameters):
        self.is_shut_down = True

    def document_and_place(self, parameters):
        """The open document of a request and the place in it; None twice where it is not open."""
        uri = member(member(parameters, "textDocument", dict), "uri", str)
        position = member(parameters, "position", dict)
        place = {"line": count(position, "line"), "character": count(position, "character")}
        document = self.workspace.documents.get(uri)
        if document is None or document.path is None:
            return None, None
        return document, document.place_at(place)

    def definition(self, parameters):
        document, place = self.document_and_place(parameters)
        if document is None:
            return []
        return [it.location() for it in Definitions(self.workspace, document).at(place)]

    def hover(self, parameters):
        document, place = self.document_and_place(parameters)
        found = Hovers(self.workspace, document).at(place) if document else None
        if not found:
            return None
        paragraphs, range_ = found
        return {"contents": markdown(paragraphs), "range": range_}

    # Documents.

    def did_open(self, parameters):
        document = member(parameters, "textDocument", dict)
        self.put(document, member(document, "text", str))

    def did_change(self, parameters):
        document = member(parameters, "textDocument", dict)
        if member(document, "uri", str) not in self.workspace.documents:
            raise WrongMember("the document is not open")
        for change in objects(parameters, "contentChanges"):
            if change.get("range") is not None:
                raise WrongMember("a change has a range; the whole text is expected")
            self.put(document, member(change, "text", str))

    def put(self, document, text):
        """Takes the text of a document."""
        uri, version = member(document, "uri", str), optional(document, "version", int)
        self.workspace.put(uri, text, version)
        self.changed(uri)

    def changed(self, uri):
        """Has what depends on a document checked."""
        changed = self.workspace.documents[uri]
        for other in self.workspace.documents.values():
            if is_about(other, changed):
                self.unchecked[other.uri] = True

    def did_save(self, parameters):
        """Other files of the folder may have changed too: a boot text is checked again."""
        uri = member(member(parameters, "textDocument", dict), "uri", str)
        if uri in self.workspace.documents:
            self.changed(uri)

    def did_close(self, parameters):
        uri = member(member(parameters, "textDocument", dict), "uri", str)
        self.workspace.drop(uri)
        self.unchecked.pop(uri, None)
        self.notify("textDocument/publishDiagnostics", {"uri": uri, "diagnostics": []})

    # Diagnostics.

    def check_one(self):
        """Checks the document that has waited longest, and reports what is wrong in it."""
        uri = next(iter(self.unchecked))
        del self.unchecked[uri]
        document = self.workspace.documents.get(uri)
        if document is None or document.path is None or not self.program:
            return
        try:
            problems = check(self.program, self.workspace, document)
        except NoAnswer as why:
            self.log(str(why))
            problems = []
        except Exception as why:  # pylint: disable=broad-except
            self.broken("the check of a text", why)
            problems = []
        answer = {"uri": uri, "diagnostics": [self.diagnostic(document, it) for it in problems]}
        if document.version is not None:
            answer["version"] = document.version
        self.notify("textDocument/publishDiagnostics", answer)

    @staticmethod
    def diagnostic(document, problem):
        """A problem as the protocol has it."""
        return {
            "range": document.range_of(problem.start, problem.end),
            "severity": problem.severity,
            "code": problem.code,
            "source": "m36",
            "message": problem.sentence,
        }
