"""The segments of a run for the header of its recording."""

from .folder import FIRST_LINKAGE, FIRST_STACK
from .record import SegmentHeader


def header_of(number, sdw, name, names=(), file=None, kind=None):
    return SegmentHeader(
        number=number,
        name=name,
        names=list(names),
        file=file,
        kind=kind,
        r1=sdw.r1,
        r2=sdw.r2,
        r3=sdw.r3,
        read=sdw.read,
        execute=sdw.execute,
        write=sdw.write,
        privileged=sdw.privileged,
        gate=not sdw.no_gate,
        entries=sdw.limit,
        words=16 * (sdw.bound + 1),
        paged=not sdw.unpaged,
    )


def image_segments(image):
    """The live segments of a bare image."""
    return [header_of(number, sdw, f"{number:05o}") for number, sdw in image.segments()]


def folder_segments(folder):
    """The stacks, the linkage segments, and the segments of the boot text."""
    sdws = folder.descriptors()
    found = []
    for ring in range(8):
        number = FIRST_STACK + ring
        found.append(header_of(number, sdws[number], f"stack_{ring}", kind="stack"))
    for ring in range(8):
        number = FIRST_LINKAGE + ring
        found.append(header_of(number, sdws[number], f"linkage_{ring}", kind="linkage"))
    for segment in folder.boot.segments:
        sdw = sdws[segment.number]
        found.append(
            header_of(
                segment.number, sdw, segment.name, segment.names, segment.file, segment.kind
            )
        )
    return found
