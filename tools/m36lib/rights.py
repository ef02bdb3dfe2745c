"""Who may do what with a segment: the ring rules (docs/MANUAL.md, section 6).

`ring` is the ring of the reference, `executing` the ring of execution, and `same` says that the
segment is the one that executes. Each rule is a function that answers a question about a segment:
a refusal as the number of its access violation and the reason, or None and the reason why not."""

from functools import lru_cache

RULE = "6"


def in_order(sdw):
    return sdw.r1 <= sdw.r2 <= sdw.r3


def execute(sdw, ring):
    if ring < sdw.r1:
        return 1, f"ring {ring} is below R1 = {sdw.r1}"
    if ring > sdw.r2:
        return 1, f"ring {ring} is above R2 = {sdw.r2}"
    if not sdw.execute:
        return 2, "E is off"
    return None, f"ring {ring} is within R1 = {sdw.r1} to R2 = {sdw.r2}, and E is on"


def read(sdw, ring, same):
    if ring > sdw.r2:
        return 3, f"ring {ring} is above R2 = {sdw.r2}"
    if not sdw.read and not same:
        return 4, "R is off"
    if not sdw.read:
        return None, f"ring {ring} is at most R2 = {sdw.r2}; R is off, but the segment reads itself"
    return None, f"ring {ring} is at most R2 = {sdw.r2}, and R is on"


def write(sdw, ring):
    if ring > sdw.r1:
        return 5, f"ring {ring} is above R1 = {sdw.r1}"
    if not sdw.write:
        return 6, "W is off"
    return None, f"ring {ring} is at most R1 = {sdw.r1}, and W is on"


def transfer(sdw, ring, executing):
    refused, why = execute(sdw, ring)
    if refused is not None:
        return refused, why
    if ring != executing:
        return 12, f"the address is in ring {ring}, and ring {executing} executes"
    return None, why


def call(sdw, ring, executing, same, word):
    if not sdw.execute:
        return 2, "E is off"
    if not sdw.no_gate and not same and word >= sdw.limit:
        return 7, f"word {word:o} is no entry: the call limiter is {sdw.limit:o}"
    if ring > sdw.r3:
        return 8, f"ring {ring} is above R3 = {sdw.r3}"
    if ring < sdw.r1:
        return 9, f"ring {ring} is below R1 = {sdw.r1}"
    if ring > executing and executing < sdw.r2:
        return 10, (
            f"the address is in ring {ring}, above ring {executing}, which executes and is below "
            f"R2 = {sdw.r2}"
        )
    return None, f"{entry_reason(sdw, same, word)}, and {caller_reason(sdw, ring)}"


def entry_reason(sdw, same, word):
    if sdw.no_gate:
        return "G is on, so each word may be called"
    if same:
        return "the segment calls itself"
    return f"word {word:o} is an entry: it is below the call limiter {sdw.limit:o}"


def caller_reason(sdw, ring):
    if ring > sdw.r2:
        return f"ring {ring} is above R2 = {sdw.r2} and at most R3 = {sdw.r3}"
    return f"ring {ring} is within R1 = {sdw.r1} to R2 = {sdw.r2}"


def by_kind(kind, sdw, ring, executing, same, word):
    if kind == "fetch":
        return execute(sdw, executing)
    if kind in ("indirect", "read"):
        return read(sdw, ring, same)
    if kind == "write":
        return write(sdw, ring)
    if kind == "transfer":
        return transfer(sdw, ring, executing)
    if kind == "call":
        return call(sdw, ring, executing, same, word)
    return None, "no right is needed"


@lru_cache(maxsize=65536)
def answer(kind, sdw, ring, executing, same, word):
    """The access violation by which a reference is refused, or None, and the reason."""
    if not in_order(sdw):
        return 0, f"its brackets {sdw.r1}, {sdw.r2}, {sdw.r3} are not in order"
    return by_kind(kind, sdw, ring, executing, same, word)


def ring_called(sdw, ring):
    """The ring in which a segment runs for a caller (section 10)."""
    return min(ring, sdw.r2)
