"""The cases of `tools/limits-check`: at each limit one that is accepted, and one just past it.

The expected values are worked out by hand from the documents: BOOT.md, ACCESS.md, IMAGES.md,
ALM.md, OBJECTS.md, BIND.md and SESSIONS.md."""

from typing import NamedTuple

STOP = b" entry go\ngo: dis 0\n"
SEGMENTS, NAMES, TERMS, LIBRARIES, FRAMES = 512, 8, 16, 16, 16_384
MOST_PAGEABLE = 8_192
SECTION, OBJECT = 258_048, 262_144
LINES = MOST_BACK = 1_000_000


class Call(NamedTuple):
    """A call of the program and what is expected of it.

    `output` is all of standard output. Where `ends` is not empty, `output` is how it begins, and
    `ends` how it ends. `writes` are files whose length in bytes is expected."""

    words: str
    output: bytes = b""
    ends: bytes = b""
    status: int = 0
    error: str = ""
    given: bytes = b""
    writes: dict = {}


class Case(NamedTuple):
    """Files of a folder, and calls in it, one after another."""

    name: str
    files: dict
    calls: list


def refused(words, line):
    """A call that is refused with this line."""
    return Call(words, status=4, error=f"BadFile {line}")


# ---- folders that boot

def boot(*lines, start="start 4 go$go", frames=24):
    """A boot text with the working directory `>t`."""
    return "\n".join([f"frames {frames}", "work >t", *lines, start, ""]).encode()


GO = "segment >t go go object re 4 4 4"


def names_of(number, count):
    """The lines of the further names of a segment."""
    return [f"name s{number}.{name}" for name in range(1, count)]


def full_catalog(segments=SEGMENTS, names=NAMES):
    """As many segments with as many names each; the last one is the object `go`."""
    lines = []
    for number in range(segments - 1):
        lines += [f"segment >t s{number} d data rw 4 4 4", *names_of(number, NAMES)]
    return [*lines, "segment >t last go object re 4 4 4", *names_of(segments, names)]


def segment_cases():
    """512 segments with eight names each. The last has number 64 + 511, and is found by its last
    name. As many segments as there may be have stacks and linkage segments beside them."""
    last = f"start 4 s{SEGMENTS}.{NAMES - 1}$go"
    trace = (b"audit yes\n1 4 01077|000000 000000616000 - 000000000000 000000000000 ...... "
             b"fault 10\nend fault 10 1\n")
    files = {"boot": boot(*full_catalog(), start=last), "go.alm": STOP, "d": b""}
    yield Case("512 segments with 8 names each", files, [
        Call("alm go", b"text", b"\n"), Call("audit", b"audit yes\n"),
        Call("trace", trace, status=6, error="MachineStop"),
    ])
    line = 2 + SEGMENTS * NAMES
    more = boot(*full_catalog(), "segment >t more d data rw 4 4 4")
    yield Case("513 segments", {"boot": more}, [refused("audit", f"boot D5 {line + 1} 0")])
    more = boot(*full_catalog(names=NAMES + 1))
    yield Case("9 names", {"boot": more}, [refused("audit", f"boot D5 {line + 1} 0")])


def name_cases():
    """A directory of 64 and a name of 32 characters."""
    for directory, name, code in ((64, 32, None), (65, 32, "D1 2"), (64, 33, "D1 3")):
        text = boot(GO, "segment >t d d data r 4 4 4")
        text = text.replace(b">t", b">" + b"d" * (directory - 1))
        text = text.replace(b" go go ", b" " + b"n" * name + b" go ")
        text = text.replace(b"4 go$", b"4 " + b"n" * name + b"$")
        call = refused("audit", f"boot {code} 0") if code else Call("audit", b"audit yes\n")
        files = {"boot": text, "go.alm": STOP, "d": b""}
        calls = [Call("alm go", b"text", b"\n"), call]
        yield Case(f"names of {directory} and {name}", files, calls)


def library_cases():
    """16 libraries, of which the last has the segment of the start."""
    for count in (LIBRARIES, LIBRARIES + 1):
        lines = [f"library >l{number}" for number in range(count)]
        lines += [f"segment >l{number} d d data r 4 4 4" for number in range(count - 1)]
        lines += ["segment >t d d data r 4 4 4", GO.replace(">t", f">l{count - 1}")]
        found = Call("run", b"audit yes\nend fault 10 1\n", status=6, error="MachineStop")
        call = found if count == LIBRARIES else refused("run", f"boot D5 {2 + count} 0")
        files = {"boot": boot(*lines), "go.alm": STOP, "d": b""}
        yield Case(f"{count} libraries", files, [Call("alm go", b"text", b"\n"), call])


def frame_cases():
    """The largest core, whose last word a session shows, and the most pageable frames."""
    for count in (FRAMES, FRAMES + 1):
        words = " ".join(f"{number:012o}" for number in range(7))
        image = (
            f"core {count}\ndbr 000000000000 000000200000\nstart 00001 0 000000\n"
            "at 00000002 777777604444 000005300000\n"
            f"at 77777770 {words} 123456701234\n"
        )
        shown = Call("debug f", b"00001|000017 123456701234\n00001|000020 absent\n",
                     given=b"seg 00001 000017\nseg 00001 000020\n")
        call = shown if count == FRAMES else refused("debug f", "f I2 1 0")
        yield Case(f"{count} frames", {"f": image.encode()}, [call])
    for count in (MOST_PAGEABLE, MOST_PAGEABLE + 1):
        found = Call("run", b"audit yes\nend fault 10 1\n", status=6, error="MachineStop")
        call = found if count == MOST_PAGEABLE else refused("run", "boot D1 1 0")
        files = {"boot": boot(GO, frames=count), "go.alm": STOP}
        yield Case(f"{count} pageable frames", files, [Call("alm go", b"text", b"\n"), call])


def ring_cases():
    """Programs in the outermost rings, each of which writes and reads its stack."""
    source = b" entry go\ngo: lda 7,dl\n sta pr6|0\n ldq pr6|0\n dis 0\n"
    for ring in (6, 7):
        words = (
            ("000007235007", "=000000000007", 7, 0, "next"),
            ("600000755100", "stack", 7, 0, "next"),
            ("600000236100", "stack", 7, 7, "next"),
            ("000000616000", "-", 7, 7, "fault 10"),
        )
        lines = ["audit yes"]
        for step, (word, at, a, q, end) in enumerate(words, 1):
            at = f"{ring}:0001{ring}|000100" if at == "stack" else at
            lines.append(f"{step} {ring} 00100|{step - 1:06o} {word} {at} "
                         f"{a:012o} {q:012o} ...... {end}")
        lines += ["end fault 10 4", ""]
        text = boot(GO.replace("4 4 4", f"{ring} {ring} {ring}"), start=f"start {ring} go$go")
        yield Case(f"ring {ring}", {"boot": text, "go.alm": source}, [
            Call("alm go", b"text", b"\n"),
            Call("trace", "\n".join(lines).encode(), status=6, error="MachineStop"),
        ])
    yield Case("ring 8", {"boot": boot(GO, start="start 8 go$go")}, [refused("run", "boot D1 4 0")])


# ---- access lists

def list_cases():
    """512 access lists of 16 terms, of which the last decides."""
    segments = [f"segment >t s{number} d data rw 4 4 4" for number in range(SEGMENTS)]
    others = [f"term No.{name}.* rew" for name in range(TERMS - 1)]
    text, lines = [], []
    for number in range(SEGMENTS):
        text += [f"segment >t s{number}", *others, "term *.Demo.* r"]
        lines.append(f">t s{number} r *.Demo.*\n")
    files = {"boot": boot(*segments), "acl": "\n".join([*text, ""]).encode()}
    yield Case("512 access lists of 16 terms", files,
               [Call("access A.Demo.c", "".join(lines).encode())])
    files = files | {"acl": "\n".join([*text, "term *.*.* r", ""]).encode()}
    line = SEGMENTS * (TERMS + 1) + 1
    yield Case("17 terms", files, [refused("access A.Demo.c", f"acl C1 {line} 0")])


# ---- sessions

COUNTER = b"""core 1
dbr 000000000000 000000200000
start 00001 0 000000
at 00000002 000000400004 000007700000
at 00000040 000002054000 000000710000
"""


def back_cases():
    """A million steps, which a session takes and takes back. Each second step counts in word 2."""
    word, zero, place = b"seg 00001 000002\n", b"00001|000002 000000000000\n", b"0 00001|000000\n"
    yield Case("back 1000000", {"f": COUNTER}, [Call(
        "debug f",
        place * 10 + b"00001|000002 000001720440\n? back 1000001\n" + place + zero + b"? back\n",
        given=b"go\n" * 10 + word + b"back 1000001\nback 1000000\n" + word + b"back\n",
    )])


# ---- sources and objects

def object_cases():
    """An object of the largest size, whose text is as long as it may be: it is printed, and runs
    from its last word. Text, two words and an entry of four in the definition section, eight words
    and the static ones in the linkage section, one of the symbol section, six of the map, and the
    last word."""
    statics = OBJECT - SECTION - (2 + 4) - 8 - 1 - 6 - 1
    source = " entry last\n bss a,%d\nlast: dis 0\n use link\n bss b,%d\n"
    sizes = f"object f {OBJECT}\ntext 000000 770000\n".encode()
    fits = (source % (SECTION - 1, statics)).encode()
    trace = (b"audit yes\n1 4 00100|767777 000000616000 - 000000000000 000000000000 ...... "
             b"fault 10\nend fault 10 1\n")
    text = boot("segment >t f f object re 4 4 4", start="start 4 f$last")
    yield Case("the largest object", {"f.alm": fits, "boot": text}, [
        Call("alm f", b"text 000000 000000000000 2\n", b"767777 000000616000 dis 0\n",
             writes={"f": OBJECT * 9 // 2}),
        Call("print f", sizes, b"767777 000000616000 dis 0\n"),
        Call("trace", trace, status=6, error="MachineStop"),
    ])
    larger = (source % (SECTION - 1, statics + 2)).encode()
    yield Case("a larger object", {"f.alm": larger}, [refused("alm f", "f.alm E8 5 1")])
    longer = (source % (SECTION, 0)).encode()
    yield Case("a longer section", {"f.alm": longer}, [refused("alm f", "f.alm E8 3 1")])


def bound_cases():
    """Two objects that together have the longest text."""
    half = SECTION // 2
    for more in (0, 2):
        files = {"a.alm": b" bss x,%d\n" % half, "b.alm": b" bss y,%d\n" % (half + more),
                 "c.bind": b"object a\nobject b\n"}
        # The definition section has 2 words, the linkage section 8, the symbol section 1.
        size = f"object c {SECTION + 2 + 8 + 1 + 6 + 1}\ntext 000000 770000\n".encode()
        call = Call("bind c", size, b"767777 000000000000 oct 000000000000\n")
        call = refused("bind c", "c.bind B4 0 0") if more else call
        calls = [Call("alm a", b"text", b"\n"), Call("alm b", b"text", b"\n"), call]
        yield Case(f"a bound section with {more} words too many", files, calls)


def source_cases():
    """A source of a million lines: labels, remarks, nothing, and at the end an instruction."""
    head = b"".join(b"a%06d: \"\n\n" % number for number in range(LINES // 2 - 1)) + b"\n"
    for last, line in ((b" tra a499998+3\n", None), (b" tra a499999+3\n", "f.alm E6 1000000 6")):
        call = Call("alm f", b"text 000000 000003710000 1000000\n", b"000000 000003710000 tra 3\n")
        call = refused("alm f", line) if line else call
        yield Case(f"a million lines and{last[:-1].decode()}", {"f.alm": head + last}, [call])


def all_cases():
    """Every case."""
    for cases in (segment_cases, name_cases, library_cases, frame_cases, ring_cases, list_cases,
                  back_cases, object_cases, bound_cases, source_cases):
        yield from cases()
