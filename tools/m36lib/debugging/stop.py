"""Why a session is where it is."""

from dataclasses import dataclass


@dataclass(frozen=True)
class Stop:
    """`step` is how many steps the run has taken; `reason` is one of

    `begin`      the session has begun, or has gone back to the start
    `step`       the steps that were asked for are taken
    `break`      the next instruction is at a breakpoint, `number`
    `watch`      forward: the last step changed what is watched, from `before` to `after`;
                 backward: the next step changes it so. `number` is that of the watchpoint, or None
                 of a question by `who`
    `ring`       the ring has changed
    `return`     the call has returned, or (backward) is the next instruction
    `end`        the run has ended; `end` is the program's end line
    `limit`      a `go` has taken as many steps as it may
    `interrupt`  the user has interrupted

    `text` says it in a sentence."""

    step: int
    reason: str
    text: str
    number: int = None
    what: str = None
    before: str = None
    after: str = None
    end: str = None


@dataclass(frozen=True)
class Frame:
    """A place in a call: where it is (the next instruction, or that of a call that has not
    returned), in which ring, and what was called: the place, as a name, that began it."""

    segment: int
    word: int
    ring: int
    name: str
    began: str
    file: str = None
    line: int = None
    call_step: int = None


@dataclass
class Breakpoint:
    """`place` is as `00100|000011`; `condition` an expression or None; `hits` how often it has
    stopped the run."""

    number: int
    place: str
    text: str
    condition: object = None
    enabled: bool = True
    temporary: bool = False
    hits: int = 0


@dataclass
class Watchpoint:
    """`what` is a watched.Watched: a word or a register."""

    number: int
    what: object
    enabled: bool = True
    hits: int = 0
