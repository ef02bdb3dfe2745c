"""Messages of both protocols: a header that gives the length in bytes, an empty line, and a JSON
object.

    reader = MessageReader(stream)
    message = reader.read()          # None at the end of the input

Input that is no message raises BadMessage. After a bad header the reader looks for the next line
that ends with `Content-Length: N`, and goes on there."""

import json
import re

MOST_BYTES = 64 * 1024 * 1024
MOST_OF_LINE = 4096
MOST_LINES = 32
LENGTH = re.compile(rb"content-length:[ \t]*([0-9]+)[ \t]*\r?\n", re.IGNORECASE)
HEADER = re.compile(rb"[!-9;-~]+:[^\r\n]*\r?\n")


class BadMessage(Exception):
    """Input that is no message. `is_json` is true where it is JSON, but no object."""

    def __init__(self, why, is_json=False):
        super().__init__(why)
        self.is_json = is_json


class MessageReader:
    """Reads messages from a binary stream."""

    def __init__(self, stream):
        self.stream = stream
        self.is_lost = False

    def read(self):
        """The next message, or None at the end of the input."""
        length = self.found_length() if self.is_lost else self.length()
        if length is None:
            return None
        data = self.stream.read(length)
        if len(data) < length:
            raise BadMessage(f"the input ends after {len(data)} of {length} bytes of a message")
        return message_of(data)

    def lose(self, why):
        """The exception for a bad header: where the next message begins is not known."""
        self.is_lost = True
        return BadMessage(why)

    def length(self):
        """Reads a header, and returns the length that it gives; None at the end of the input."""
        found, count = None, 0
        while (line := self.stream.readline(MOST_OF_LINE)) not in (b"\r\n", b"\n"):
            if not line and not count:
                return None
            if not line.endswith(b"\n") and len(line) < MOST_OF_LINE:
                raise BadMessage("the input ends within a header")
            count += 1
            match = LENGTH.fullmatch(line)
            if count > MOST_LINES or not HEADER.fullmatch(line):
                raise self.lose("a line of the header is not NAME: VALUE")
            if match and found is not None:
                raise self.lose("the header has Content-Length twice")
            found = match[1] if match else found
        if found is None:
            raise self.lose("the header has no Content-Length with a number of bytes")
        return self.allowed(found)

    def allowed(self, digits):
        """The length of these digits, if a message may have it."""
        if len(digits) > 12 or int(digits) > MOST_BYTES:
            raise self.lose(f"the message has more than {MOST_BYTES} bytes")
        return int(digits)

    def found_length(self):
        """After a bad header: skips to the next one. Returns its length, or None at the end."""
        while line := self.stream.readline(MOST_OF_LINE):
            match = LENGTH.search(line)
            if match:
                self.is_lost = False
                length = self.allowed(match[1])
                self.skip_header()
                return length
        return None

    def skip_header(self):
        """Skips the rest of a header."""
        while self.stream.readline(MOST_OF_LINE) not in (b"\r\n", b"\n", b""):
            pass


def refuse_constant(name):
    """JSON has no NaN and no Infinity."""
    raise ValueError(f"{name} is no JSON")


def message_of(data):
    """The message of these bytes."""
    try:
        message = json.loads(data.decode("utf-8"), parse_constant=refuse_constant)
    except (ValueError, RecursionError) as why:
        raise BadMessage(f"the message is no JSON: {why}") from None
    if not isinstance(message, dict):
        raise BadMessage("the message is JSON, but no object", is_json=True)
    return message


def bytes_of(message):
    """A message with its header."""
    data = json.dumps(message, separators=(",", ":"), allow_nan=False).encode("ascii")
    return b"Content-Length: %d\r\n\r\n%b" % (len(data), data)
