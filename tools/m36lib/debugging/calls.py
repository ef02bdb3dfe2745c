"""The calls in which a run is: who called whom, from which ring.

A Call is pushed by CALL6, TSPn and TSXn. RTCD pops the innermost call after whose site it goes on.
If there is none, it pops the innermost one that was made from the segment to which it goes. A
transfer to the instruction after the innermost call pops that call."""

from typing import NamedTuple

from .lines import PUSHES, RETURNS, after_place


class Call(NamedTuple):
    """A call that has not returned. `step` is the number of the step of the call, `site` its place
    and `ring` its ring; `target` is where it went, in `target_ring`. `back` is the place after the
    site; `outer` is the call in which it was made, or None."""

    step: int
    ring: int
    site: str
    target_ring: int
    target: str
    back: str
    depth: int
    outer: object


def depth_of(call):
    return call.depth if call else 0


def follow(call, taken):
    """The innermost call after a step, from that before it."""
    if taken.outcome != "next":
        return call
    code = taken.code
    if code in PUSHES and is_whole(taken.word):
        return Call(
            step=taken.number,
            ring=int(taken.ring),
            site=taken.place,
            target_ring=int(taken.next_ring),
            target=taken.next_place,
            back=after_place(taken.place),
            depth=depth_of(call) + 1,
            outer=call,
        )
    if code in RETURNS and is_whole(taken.word):
        return returned(call, taken.next_place)
    if call is not None and taken.next_place == call.back and has_jumped(taken):
        return call.outer
    return call


def is_whole(word):
    """Bit 27 of an instruction word is off, so that the three digits are the operation code."""
    return word[9] < "4"


def returned(call, place):
    """The innermost call after a return to a place."""
    found = call
    while found is not None and found.back != place:
        found = found.outer
    if found is None:
        found = call
        while found is not None and found.site[:5] != place[:5]:
            found = found.outer
    return found.outer if found is not None else call


def has_jumped(taken):
    return taken.next_place != taken.place and taken.next_place != after_place(taken.place)


def listed(call):
    """The calls from the innermost one outwards."""
    while call is not None:
        yield call
        call = call.outer
