"""The protocol of the debug adapter: requests, responses and events with their numbers.

A `Channel` takes each message to the handler of its command. A handler returns the body of the
response, or raises Refused. What it adds with `after` happens once the response is written."""

import sys
import traceback

from ..protocol.inbox import END
from ..protocol.members import WrongMember, is_of, optional
from ..protocol.messages import BadMessage
from ..protocol.serve import NoReader
from ..shown import plain


class Refused(Exception):
    """The request fails, with this text for the person."""


class Ended(Exception):
    """The session is over, with this exit status."""

    def __init__(self, status):
        super().__init__(status)
        self.status = status


class Channel:
    """Messages to and from an editor."""

    def __init__(self, inbox, output):
        self.inbox = inbox
        self.output = output
        self.sent = 0
        self.later = []
        self.handlers = {}

    def run(self):
        """Answers up to the end of the session or of the input. Returns the exit status."""
        while True:
            item = self.inbox.take()
            if item is END:
                return 1
            try:
                self.take(item)
            except Ended as end:
                return end.status

    def send(self, message):
        """Writes a message with its number."""
        self.sent += 1
        self.output.send({"seq": self.sent, **message})

    def event(self, name, **body):
        """Sends an event."""
        self.send({"type": "event", "event": name, "body": body})

    def after(self, action):
        """Adds what happens after the response."""
        self.later.append(action)

    def respond(self, number, command, **rest):
        """Answers a request."""
        self.send({"type": "response", "request_seq": number, "command": command, **rest})

    def fail(self, number, command, text):
        """Answers that a request fails. The editor shows the text."""
        text = " ".join(plain(line) for line in text.splitlines())
        error = {"id": 1, "format": text.replace("{", "(").replace("}", ")"), "showUser": True}
        self.respond(number, command, success=False, message=text, body={"error": error})

    def take(self, item):
        """Takes what came. A message that is no request is answered as one without a number."""
        if isinstance(item, BadMessage):
            self.fail(0, "", str(item))
        elif item.get("type") == "response":
            return
        elif item.get("type") != "request" or not is_of(item.get("command"), str):
            self.fail(0, "", "expected a request with a command")
        elif not is_of(item.get("seq"), int):
            self.fail(0, item["command"], "seq is missing or is not a whole number")
        else:
            self.answer(item["seq"], item["command"], item)

    def answer(self, number, command, message):
        """Answers a request, and does what comes after it."""
        try:
            body = self.body_of(number, command, message)
        except (Refused, WrongMember) as why:
            self.fail(number, command, f"{plain(command)}: {why}")
        except (Ended, NoReader):
            raise
        except Exception as why:  # pylint: disable=broad-except
            traceback.print_exc(file=sys.stderr)
            self.fail(number, command, f"{plain(command)}: {type(why).__name__}: {why}")
        else:
            self.respond(number, command, success=True, **({} if body is None else {"body": body}))
        later, self.later = self.later, []
        for action in later:
            self.perform(action)

    def perform(self, action):
        """Does what comes after a response. If it breaks, the session goes on."""
        try:
            action()
        except (Ended, NoReader):
            raise
        except Exception as why:  # pylint: disable=broad-except
            traceback.print_exc(file=sys.stderr)
            self.event("output", category="important", output=f"{type(why).__name__}: {why}\n")

    def body_of(self, number, command, message):
        """The body of the response."""
        if command not in self.handlers:
            raise Refused("there is no such command")
        if self.is_cancelled(number):
            raise Refused("cancelled")
        return self.handlers[command](optional(message, "arguments", dict, {}))

    def is_cancelled(self, number):
        """Whether a request that waits cancels this one."""
        def matches(item):
            arguments = item.get("arguments") if isinstance(item, dict) else None
            return (isinstance(arguments, dict) and item.get("command") == "cancel"
                    and is_of(arguments.get("requestId"), int)
                    and arguments["requestId"] == number)
        return self.inbox.any(matches)

    def has_waiting(self):
        """Whether something waits."""
        return self.inbox.any(lambda _: True)

    def take_waiting(self):
        """Answers what waits, up to the end of the input."""
        while self.has_waiting() and not self.inbox.any(lambda item: item is END):
            self.take(self.inbox.take())

    def is_waited_for(self, commands):
        """Whether one of these commands waits, or the input has ended."""
        def matches(item):
            return item is END or isinstance(item, dict) and item.get("command") in commands
        return self.inbox.any(matches)
