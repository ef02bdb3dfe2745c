"""The recording of whatever can be looked at."""

import pathlib

from .recorder import Recorder
from .schedule import Schedule, is_schedule


def open_run(program, what):
    """The recording of a folder that boots, of a bare image, or of several processes."""
    path = pathlib.Path(what)
    if path.is_dir():
        return Recorder(program, path)
    if is_schedule(path):
        return Schedule(program, path.parent, path.name)
    return Recorder(program, path.parent, image=path.name)
