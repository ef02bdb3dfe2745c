"""The debugger's library: see session.py."""

from .conditions import BadCondition, Condition
from .places import NoPlace
from .session import NotThere, Session
from .stop import Breakpoint, Frame, Stop, Watchpoint
from .watched import WatchedRegister, WatchedWord

__all__ = [
    "BadCondition", "Breakpoint", "Condition", "Frame", "NoPlace", "NotThere", "Session", "Stop",
    "WatchedRegister", "WatchedWord", "Watchpoint",
]
