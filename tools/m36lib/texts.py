"""Reads a refused file again: its lines, and no more of it than m36 itself would read."""

import os
import stat

LIMIT = 16 * 1024 * 1024


class Text:
    """The lines of a file. A byte that is no UTF-8 is a lone surrogate, which is shown as `?`."""

    def __init__(self, data):
        parts = data.split(b"\n")
        self.is_cut = parts[-1] != b""
        kept = parts if self.is_cut else parts[:-1]
        self.lines = [part.decode("utf-8", "surrogateescape") for part in kept]

    def line(self, number):
        """Line `number`, counted from 1, or None where there is none."""
        return self.lines[number - 1] if 1 <= number <= len(self.lines) else None

    def has_line_feed(self, number):
        """Whether this line ends with a line feed, which the last one may lack."""
        return number < len(self.lines) or not self.is_cut


def read_bytes(name):
    """The bytes of a file of the folder; None where it is no plain file, or can't be read."""
    try:
        handle = os.open(name, os.O_RDONLY | os.O_NONBLOCK)
    except (OSError, ValueError):
        return None
    try:
        if not stat.S_ISREG(os.fstat(handle).st_mode):
            return None
        with os.fdopen(os.dup(handle), "rb") as file:
            return file.read(LIMIT + 1)
    except OSError:
        return None
    finally:
        os.close(handle)


def read_text(name):
    """The lines of a file of the folder, or None."""
    data = read_bytes(name)
    return None if data is None else Text(data)
