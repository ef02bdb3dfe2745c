"""The stamp of a build: a file beside the program that says which program it is and what it was
built from. Its time is the time at which that build began, so that a source that is newer, by its
own time or by that of its folder, was changed since. tools/is-current reads it.

    program SHA256      the checksum of the program
    sources SHA256      the checksum of the sources
    kit VERSION         the kit that built it
    crate NAME          a crate that it was built from, one line each
"""

import hashlib
import os


def checksum(path):
    with open(path, "rb") as it:
        return hashlib.sha256(it.read()).hexdigest()


def sources(root, paths, more=""):
    """Returns the checksum of some files, with their names below root, and of a text."""
    found = hashlib.sha256(more.encode())
    for path in paths:
        found.update(f"\n{os.path.relpath(path, root)} {checksum(path)}".encode())
    return found.hexdigest()


def write(stamp, program, of_sources, kit, crates, began):
    """Writes the stamp of a build that began at a time in nanoseconds."""
    lines = [f"program {checksum(program)}", f"sources {of_sources}", f"kit {kit}"]
    lines += [f"crate {name}" for name in crates]
    part = f"{stamp}.{os.getpid()}"
    with open(part, "w", encoding="utf-8") as out:
        out.write("\n".join(lines) + "\n")
    os.utime(part, ns=(began, began))
    os.replace(part, stamp)


def read(stamp):
    """Returns the lines of a stamp by their first word; nothing where there is no stamp."""
    try:
        with open(stamp, encoding="utf-8") as lines:
            return dict(line.rstrip("\n").partition(" ")[::2] for line in lines)
    except OSError:
        return {}
