"""The messages of a client in the order in which they came.

A thread of its own reads them, so that a request can be cancelled, or a run stopped, while another
request is being answered."""

import collections
import threading

from .messages import BadMessage


class EndOfInput:
    """The item after the last message."""


END = EndOfInput()


class Inbox:
    """Messages that wait. An item is a message, a BadMessage, or END."""

    def __init__(self, reader):
        self.reader = reader
        self.waiting = collections.deque()
        self.changed = threading.Condition()
        threading.Thread(target=self.read_all, daemon=True).start()

    def read_all(self):
        """Reads up to the end of the input."""
        item = None
        while item is not END:
            item = self.read_one()
            with self.changed:
                self.waiting.append(item)
                self.changed.notify_all()

    def read_one(self):
        """The next item."""
        try:
            message = self.reader.read()
        except BadMessage as why:
            return why
        except (OSError, ValueError):
            return END
        return END if message is None else message

    def take(self, is_waited_for=True):
        """The next item. None where none is there and it is not waited for."""
        with self.changed:
            while is_waited_for and not self.waiting:
                self.changed.wait()
            return self.waiting.popleft() if self.waiting else None

    def any(self, matches):
        """Whether one of the items that wait matches."""
        with self.changed:
            return any(matches(item) for item in self.waiting)
