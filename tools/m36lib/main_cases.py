"""The cases of `tools/main-check`: each call, and what is expected of it.

The expected values are written by hand: statuses and lines from docs/COMMANDS.md, traces and
audits from docs/MANUAL.md, the object and its listing from docs/OBJECTS.md.
"""

from dataclasses import dataclass, field

from m36lib.help_text import help_text

SMALL_MEMORY = 64 << 20

LEAST = b"""core 1
dbr 000000000000 000000200000
start 00001 0 000000
at 00000002 000000400004 000006700000
at 00000040 000002235000 000000616000 000000000005
"""
LEAST_STEPS = [
    b"1 0 00001|000000 000002235000 0:00001|000002 000000000005 000000000000 ...... next\n",
    b"2 0 00001|000001 000000616000 - 000000000005 000000000000 ...... dis\n",
]
LEAST_OUTPUT = b"audit yes\n" + b"".join(LEAST_STEPS) + b"end dis 2\n"

# The first instruction is MME, which faults.
FAULT = LEAST.replace(b"000002235000", b"000000001000")
FAULT_OUTPUT = b"""audit yes
1 0 00001|000000 000000001000 - 000000000000 000000000000 ...... fault 2
end fault 2 1
"""

# Segment 0 has its ring brackets out of order.
NO_AUDIT = b"""core 1
dbr 000000000000 000000200000
start 00001 0 000000
at 00000000 000000001004 000000200000 000000400004 000006700000
at 00000040 000002235000 000000616000 000000000005
"""
NO_AUDIT_OUTPUT = b"audit no A1 00000\n"

# The largest core: 2^24 words, which is far more than SMALL_MEMORY.
LARGE = b"core 16384\ndbr 000000000000 000000200000\nstart 00001 0 000000\n"

# The object of a source without a line: 18 words of 36 bits (docs/OBJECTS.md).
EMPTY_OBJECT_WORDS = [
    *[0] * 3, 0o000010000000, *[0] * 7, 1,
    0, 2, 0o000002000010, 0o000012000001, 0, 0o000013000000,
]
EMPTY_LISTING = b"""object e 18
text 000000 000000
definition 000000 000002
linkage 000002 000010
symbol 000012 000001
entrybound 000000
"""

USAGE = b"m36: Usage\n" + help_text().encode()


@dataclass
class Case:
    """One call and what is expected of it.

    `files` are there before: their bytes, or a function that makes the file; "." is the mode of the
    folder. `written` are the files that the call changes. `streams` are redirections of a shell.
    With `errors` None standard error is not read. `room` is the size that no file may exceed, and
    `called` the name by which the program is called.
    """

    name: str
    words: list
    status: int
    errors: bytes | None = b""
    output: bytes = b""
    files: dict = field(default_factory=dict)
    written: dict = field(default_factory=dict)
    given: bytes = b""
    streams: str = ""
    memory: int | None = None
    room: int | None = None
    called: bytes = b""
    is_nobody: bool = False


def folder_file(path):
    """Makes a folder in place of a file."""
    path.mkdir()


def unreadable(path):
    """Makes a file that its owner may not read."""
    path.write_bytes(LEAST)
    path.chmod(0)


def link_to(name):
    """Returns a function that makes a symbolic link to a file of the folder."""
    return lambda path: path.symlink_to(name)


def second_name_of(name):
    """Returns a function that makes a hard link to a file of the folder that is there already."""
    return lambda path: path.hardlink_to(path.parent / name)


def packed(words):
    """Words of 36 bits as bytes: two words in nine bytes."""
    digits = "".join(f"{word:09x}" for word in words)
    return bytes.fromhex(digits + "0" * (len(digits) % 2))


def status_cases():
    """Each of the nine statuses, with all streams open."""
    least = {"least": LEAST}
    bare = ["bare", "least"]
    yield Case("Done: bare", bare, 0, b"", LEAST_OUTPUT, least)
    yield Case("Done: audit", ["audit", "least"], 0, b"", b"audit yes\n", least)
    yield Case(
        "Done: debug reads standard input", ["debug", "least"], 0, b"", b"0 00001|000000\n", least,
        given=b"where\nquit\n",
    )
    yield Case(
        "Done: alm writes a file", ["alm", "e"], 0, b"", EMPTY_LISTING, {"e.alm": b""},
        {"e": packed(EMPTY_OBJECT_WORDS)},
    )
    yield Case("Done: options are read", [*bare, "--steps=2"], 0, b"", LEAST_OUTPUT, least)
    yield Case("Done: operand after --", ["bare", "--", "least"], 0, b"", LEAST_OUTPUT, least)
    yield Case(
        "Done: --unaudited", ["bare", "bad", "--unaudited"], 0, b"",
        NO_AUDIT_OUTPUT + b"".join(LEAST_STEPS) + b"end dis 2\n", {"bad": NO_AUDIT},
    )
    yield Case("ReadFault: a folder", bare, 2, b"m36: ReadFault\n", b"", {"least": folder_file})
    yield Case(
        "BadFile: absent", bare, 4, b"m36: BadFile least F1 0 0\n", b"", {"other": LEAST}
    )
    yield Case(
        "BadFile: line and column", ["alm", "e"], 4, b"m36: BadFile e.alm E6 1 6\n", b"",
        {"e.alm": b" lda b\n", "e": b"old"},
    )
    yield Case(
        "AuditNo", ["bare", "bad"], 5, b"m36: AuditNo\n", NO_AUDIT_OUTPUT, {"bad": NO_AUDIT}
    )
    yield Case(
        "MachineStop", ["bare", "f"], 6, b"m36: MachineStop\n", FAULT_OUTPUT, {"f": FAULT}
    )
    yield Case(
        "Steps", [*bare, "--steps", "1"], 7, b"m36: Steps\n",
        b"audit yes\n" + LEAST_STEPS[0] + b"end limit 1\n", least,
    )
    yield Case(
        "Done: the largest core", ["audit", "large"], 0, b"", b"audit yes\n", {"large": LARGE}
    )
    yield Case(
        "NoMemory: the largest core in 64 MiB", ["audit", "large"], 8, b"m36: NoMemory\n", b"",
        {"large": LARGE}, memory=SMALL_MEMORY,
    )


def usage_cases():
    """Words that are no command: status 1, the help on standard error, and nothing done."""
    lists = {
        "no word": [],
        "an empty word": [""],
        "no such command": ["rum"],
        "--help": ["--help"],
        "an operand is missing": ["bare"],
        "an operand too many": ["bare", "least", "least"],
        "no such option": ["bare", "least", "--fast"],
        "a value is missing": ["bare", "least", "--steps"],
        "one word with blanks": ["bare", "least --steps 2"],
        "a path": ["bare", "./least"],
        "not UTF-8": ["bare", b"\xff"],
        "alm with a name too long": ["alm", "e" * 28],
    }
    files = {"least": LEAST, "e" * 28 + ".alm": b""}
    for name, words in lists.items():
        yield Case(f"Usage: {name}", words, 1, USAGE, b"", files)


def stream_cases():
    """Standard streams that are closed or can't be written."""
    least = {"least": LEAST}
    bare = ["bare", "least"]
    fault = b"m36: WriteFault\n"
    for how in (">&-", "> /dev/full"):
        yield Case(f"WriteFault: bare {how}", bare, 3, fault, b"", least, streams=how)
        yield Case(
            f"WriteFault: alm {how}", ["alm", "e"], 3, fault, b"", {"e.alm": b""},
            {"e": packed(EMPTY_OBJECT_WORDS)}, streams=how,
        )
        yield Case(
            f"WriteFault: debug {how}", ["debug", "least"], 3, fault, b"", least,
            given=b"where\n", streams=how,
        )
        yield Case(f"Usage: {how}", ["rum"], 1, USAGE, b"", streams=how)
        yield Case(
            f"BadFile: {how}", bare, 4, b"m36: BadFile least F1 0 0\n", b"", streams=how
        )
    yield Case(
        "ReadFault: debug <&-", ["debug", "least"], 2, b"m36: ReadFault\n", b"", least,
        streams="<&-",
    )
    yield Case("Done: bare <&-", bare, 0, b"", LEAST_OUTPUT, least, streams="<&-")
    for how in ("2>&-", "2> /dev/full"):
        yield Case(f"Done: bare {how}", bare, 0, None, LEAST_OUTPUT, least, streams=how)
        yield Case(f"Usage: {how}", ["rum"], 1, None, b"", streams=how)
        yield Case(f"BadFile: {how}", bare, 4, None, b"", streams=how)
        yield Case(
            f"MachineStop: {how}", ["bare", "f"], 6, None, FAULT_OUTPUT, {"f": FAULT}, streams=how
        )
    yield Case("WriteFault: >&- 2>&-", bare, 3, None, b"", least, streams=">&- 2>&-")
    yield Case("WriteFault: <&- >&- 2>&-", bare, 3, None, b"", least, streams="<&- >&- 2>&-")


def rights_cases():
    """Files that may not be read or written, for a user who is not root."""
    yield Case(
        "ReadFault: unreadable", ["bare", "least"], 2, b"m36: ReadFault\n", b"",
        {"least": unreadable}, is_nobody=True,
    )
    yield Case(
        "BadFile: absent, as nobody", ["bare", "least"], 4, b"m36: BadFile least F1 0 0\n", b"",
        is_nobody=True,
    )
    yield Case(
        "WriteFault: the folder is read only", ["alm", "e"], 3, b"m36: WriteFault\n", b"",
        {"e.alm": b"", ".": 0o555}, is_nobody=True,
    )


def file_cases():
    """An object is written whole or not at all, and nothing else is changed."""
    source = {"e.alm": b"", "g": b"other"}
    written = {"e": packed(EMPTY_OBJECT_WORDS)}
    for how, older in (
        ("an older one", b"old"), ("a link to its source", link_to("e.alm")),
        ("a link to another file", link_to("g")), ("a link to nothing", link_to("h")),
        ("a second name of its source", second_name_of("e.alm")),
    ):
        yield Case(
            f"Done: the object replaces {how}", ["alm", "e"], 0, b"", EMPTY_LISTING,
            {**source, "e": older}, written,
        )
    yield Case(
        "Done: a file has the first spare name", ["alm", "e"], 0, b"", EMPTY_LISTING,
        {**source, ".m36-000": b"left"}, written,
    )
    fault = ["alm", "e"], 3, b"m36: WriteFault\n", b""
    yield Case("WriteFault: a folder in place of the object", *fault, {**source, "e": folder_file})
    yield Case("WriteFault: no room for the object", *fault, {**source, "e": b"old"}, room=40)


def called_cases():
    """The name by which the program is called is none of its words."""
    yield Case(
        "Done: called by a name that is not UTF-8", ["audit", "least"], 0, b"", b"audit yes\n",
        {"least": LEAST}, called=b"m\xff",
    )


def all_cases():
    """Every case."""
    return [
        *status_cases(), *usage_cases(), *stream_cases(), *rights_cases(), *file_cases(),
        *called_cases(),
    ]
