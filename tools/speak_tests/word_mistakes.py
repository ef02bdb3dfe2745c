"""Wrong command words, images and texts of processes, written by hand; rows as in `mistakes`."""

from speak_tests.mistakes import rows

BARE = "bare takes FILE [--steps N] [--unaudited]"
# The words are separated by line feeds.
WORDS = rows(
    "words",
    ("rum", "Usage", "rum", "one of bare, audit, run"),
    ("--help", "Usage", "--help", "one of bare, audit, run"),
    ("bare\n--stps\n5\nleast", "Usage", "--stps", BARE),
    ("bare\nleast\n--user\nA.B.a", "Usage", "--user", "bare does not take", BARE),
    ("bare\nleast\nmost", "Usage", "most", "one operand too many", BARE),
    ("bare\n.least", "Usage", ".least", "not beginning with a full stop"),
    ("bare\na/b", "Usage", "a/b", "1 to 32 letters"),
    ("run\nleast", "Usage", "least", "run takes [--steps N] [--unaudited] [--user USER]"),
    ("run\n--steps\nmany", "Usage", "many", "1 to 8 decimal digits"),
    ("run\n--steps=10000001", "Usage", "10000001", "at most 10,000,000"),
    ("run\n--user=Smith", "Usage", "Smith", "Person.Project.tag"),
    ("access\nSmith.Demo.A", "Usage", "Smith.Demo.A", "one small letter"),
    ("make\nseven", "Usage", "seven", "1 to 18 decimal digits"),
    ("alm\n" + "a" * 28, "Usage", "a" * 28, "1 to 27 letters"),
    ("audit\nleast\n--user\nA.B.a", "Usage", "least", "the folder alone"),
    ("run\n--unaudited=1", "Usage", "--unaudited=1", "takes no value"),
)

HEAD = "core 1\ndbr 000000000000 000000200000\nstart 00000 0 000000\n"
IMAGES = rows(
    "image",
    ("cor 1\n", "I1", "cor", "one of core, dbr, start, at"),
    ("core 0\n", "I2", "0", "from 1 to 16384"),
    ("core 1\ndbr 00000000000 000000200000\n", "I1", "00000000000", "12 octal digits", "dbr E O"),
    (HEAD.replace("start 00000", "start 0000"), "I1", "0000", "5 octal digits", "start S R I"),
    (HEAD + "at 0 000000000001\n", "I1", "0", "8 octal digits", "at A W .."),
    ("core 1\nstart 00000 0 000000\n", "I1", "start 00000 0 000000", "dbr E O"),
    (HEAD + "at 00002000 000000000000\n", "I3", "00002000", "core"),
    (HEAD + "at 00000002 000000000000\nat 00000001 000000000000\n", "I3", "00000001", "rise"),
)

PROCESS = "core 1\nprocess 000000000000 000000200000 00000 0 000000\n"
PROCESSES = rows(
    "processes",
    ("core 1\nturns 1 0\n", "P1", "turns 1 0", "process E O S R I"),
    (PROCESS + "turns 0 0\n", "P1", "0", "from 1 to 1000000"),
    (PROCESS, "P1", PROCESS.splitlines()[1], "turns C P .."),
    (PROCESS + "turns 1000000" + 11 * " 0" + "\n", "P1", "turns 1000000" + 11 * " 0", "10,000,000"),
    (PROCESS + "turns 1 1\n", "P2", "1", "from 0 to 0"),
)
