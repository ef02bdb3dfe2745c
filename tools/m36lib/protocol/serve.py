"""Serves an editor over standard input and output, up to the end of the session or a signal."""

import os
import signal
import sys

from .inbox import Inbox
from .messages import MessageReader, bytes_of

NO_READER = 3
SIGNALS = (signal.SIGTERM, signal.SIGHUP, signal.SIGINT)


class NoReader(Exception):
    """The editor does not read any more."""


class Output:
    """Where messages are written."""

    def __init__(self, stream):
        self.stream = stream

    def send(self, message):
        """Writes a message, and does not keep it back."""
        try:
            self.stream.write(bytes_of(message))
            self.stream.flush()
        except BrokenPipeError:
            raise NoReader from None


def end_by_signal(number, _frame):
    """Ends the server in good order."""
    for other in SIGNALS:
        signal.signal(other, signal.SIG_IGN)
    sys.exit(128 + number)


def serve(make_server):
    """Runs the server that is made of an inbox and an output: its `run` gives the exit status, and
    its `close` ends what it has started. Does not return."""
    for number in SIGNALS:
        signal.signal(number, end_by_signal)
    server = None
    try:
        inbox = Inbox(MessageReader(sys.stdin.buffer))
        server = make_server(inbox, Output(sys.stdout.buffer))
        status = server.run()
    except NoReader:
        status = NO_READER
    except SystemExit as end:
        status = end.code
    finally:
        if server:
            server.close()
    # (the thread that reads may wait for input for ever, so it is not waited for)
    os._exit(status)
