"""What the rings may do, for the scope of rings."""

from ..debugging import Session
from ..folder import Sdw
from .. import rights


def sdw_of(header):
    """The descriptor of a segment as its header has it."""
    return Sdw(0, header.r1, header.r2, header.r3, True, 0, header.words // 16 - 1, header.read,
               header.execute, header.write, header.privileged, not header.paged,
               not header.gate, header.entries)


def rights_of(header, ring):
    """What a ring may do with a segment, in words."""
    sdw = sdw_of(header)
    found = [name for name, (refused, _) in (
        ("reads", rights.read(sdw, ring, False)), ("writes", rights.write(sdw, ring)),
        ("executes", rights.execute(sdw, ring))) if refused is None]
    if header.gate and header.execute and header.r2 < ring <= header.r3:
        found.append(f"calls its entries, in ring {header.r2} then")
    return ", ".join(found) or "nothing"


def asked(session: Session):
    """The questions of the next step to the tables, with their answers."""
    return [(reference.question, reference.answer) for reference in session.account().references]
