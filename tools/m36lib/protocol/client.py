"""A client of both protocols, for the checks: it starts a server and speaks with it."""

import os
import queue
import subprocess
import threading

from .messages import MessageReader, bytes_of

MOST_SECONDS = 60


class NoReply(Exception):
    """The server did not send what was waited for."""


class Client:
    """A server as a child, and the messages that it has sent.

    with Client([tool], environment) as client: .."""

    def __init__(self, words, environment=None, folder=None):
        self.process = subprocess.Popen(
            words, stdin=subprocess.PIPE, stdout=subprocess.PIPE, stderr=subprocess.PIPE,
            env={**os.environ, **(environment or {})}, cwd=folder, start_new_session=True)
        self.received = queue.Queue()
        self.kept = []
        self.errors = b""
        self.is_ready = False
        self.readers = [threading.Thread(target=it, daemon=True)
                        for it in (self.read_all, self.read_errors)]
        for reader in self.readers:
            reader.start()

    def __enter__(self):
        return self

    def __exit__(self, *_):
        self.process.kill()
        self.process.wait()
        for reader in self.readers:
            reader.join(MOST_SECONDS)
        for pipe in (self.process.stdin, self.process.stdout, self.process.stderr):
            try:
                pipe.close()
            except OSError:
                pass

    def read_all(self):
        """Takes what the server sends, and None at its end."""
        reader = MessageReader(self.process.stdout)
        while (message := reader.read()) is not None:
            self.received.put(message)
        self.received.put(None)

    def read_errors(self):
        """Takes what the server writes to standard error."""
        self.errors = self.process.stderr.read()

    def write(self, data):
        """Writes bytes as they are."""
        self.process.stdin.write(data)
        self.process.stdin.flush()

    def send(self, message):
        """Sends a message."""
        self.write(bytes_of(message))

    def wait_for(self, matches, what="a message"):
        """The first message that matches, of those that are kept and those that come."""
        for message in self.kept:
            if matches(message):
                self.kept.remove(message)
                return message
        while True:
            try:
                message = self.received.get(timeout=MOST_SECONDS)
            except queue.Empty:
                raise NoReply(f"no reply in {MOST_SECONDS} seconds: {what}") from None
            if message is None:
                raise NoReply(f"the server ended before {what}: {self.errors.decode()[-500:]}")
            if matches(message):
                return message
            self.kept.append(message)

    def end(self):
        """Ends the input, and returns the status of the server."""
        self.process.stdin.close()
        return self.process.wait(MOST_SECONDS)
