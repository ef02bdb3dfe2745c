"""Mistakes that were written by hand, each with what the answer must name.

A row has the file that is wrong, the code by the rules of the documents, the text at fault, and
words of the form that is expected in its place. None of this is copied from an answer.
"""

from dataclasses import dataclass


@dataclass(frozen=True)
class Mistake:
    """A wrong file or wrong words: its kind, the text, and what the answer must have."""

    kind: str
    text: str
    code: str
    wrong: str
    expected: tuple[str, ...]
    origin: str = "by hand"


def rows(kind, *table):
    """Mistakes of one kind."""
    return [Mistake(kind, text, code, wrong, expected) for text, code, wrong, *expected in table]


LONG = "a" * 33
SOURCES = rows(
    "source",
    (" lda x,qqq\n", "E2", "qqq", "modifier", "n au qu du ic al ql dl", "x0 to x7"),
    (" lda 1,\n", "E2", "1,", "modifier", "x0 to x7"),
    (" lda 1, x2\n", "E2", " x2", "modifier", "x0 to x7"),
    (" lda 1,x8\n", "E2", "x8", "x0 to x7"),
    (" lda 1,**\n", "E2", "**", "modifier", "* alone"),
    (" lda pr8|2\n", "E2", "pr8", "pr0 to pr7", "PR|EXPR"),
    (" lda qq|2\n", "E2", "qq", "ap ab bp bb lp lb sp sb"),
    (" lda 08\n", "E2", "08", "leading zero", "decimal number"),
    (" lda 1+\n", "E2", "1+", "number, a symbol, or *"),
    (" lda a b\n", "E2", "a b", "blank", "number, a symbol, or *"),
    (" lda 2x\n", "E2", "2x", "number, a symbol, or *"),
    (" lda a:b\n", "E2", "a:b", "number, a symbol, or *"),
    (" call6 9con$write\n", "E2", "9con", "a letter or _", "SEGMENT$ENTRY"),
    (" call6 con$9w\n", "E2", "9w", "a letter or _", "SEGMENT$ENTRY"),
    (" call6 con$write*2\n", "E2", "*2", "+ or -"),
    (" lda *txt$a\n", "E2", "*txt", "*text, *link, *static"),
    (" lda pr1|,x1\n", "E2", "pr1|,x1", "number, a symbol, or *"),
    ("1a: nop 0\n", "E2", "1a", "a letter or _"),
    ("a$b: nop 0\n", "E2", "a$b", "a letter or _", "digits"),
    (f"{LONG}: nop 0\n", "E2", LONG, "32 characters at most"),
    (f" lda {LONG}\n", "E2", LONG, "32"),
    (" entry\n", "E2", "entry", "names of labels of the text", "commas"),
    (" entry a,,b\n", "E2", "a,,b", "names of labels of the text"),
    (" entry a,1b\n", "E2", "1b", "a letter or _"),
    (" segdef a b\n", "E2", "a b", "a letter or _", "names of labels"),
    (" equ a\n", "E2", "a", "a symbol, a comma and an expression"),
    (" equ 1,2\n", "E2", "1", "a symbol, a comma and an expression"),
    (" use txt\n", "E2", "txt", "text, link or static"),
    (" dec 1,x\n", "E2", "x", "decimal number"),
    (" dec 1,,2\n", "E2", "1,,2", "decimal number"),
    (" oct 18\n", "E2", "18", "octal number"),
    (" oct -1\n", "E2", "-1", "octal number"),
    (' aci "abc\n', "E2", '"abc', "two equal characters"),
    (" aci /abc/ d\n", "E2", "d", "two equal characters"),
    (" zero 1\n", "E2", "1", "two expressions with a comma"),
    (" zero 1,2,3\n", "E2", "1,2,3", "two expressions with a comma"),
    (" bss a\n", "E2", "a", "a symbol, a comma and a number"),
    (" bss a,b\n", "E2", "b", "a symbol, a comma and a number"),
    (" even 2\n", "E2", "2", "no operand"),
    ("# a remark\n", "E1", "#", "letters, digits, blanks"),
    (" lda 1\n lda !\n", "E1", "!", "letters, digits, blanks"),
    (" lda\r\n", "E3", "lda?", "instruction", "section 9"),
    (" aci /a\tb/\n", "E1", "?", "printing characters, octal 040 to 176"),
    (" foo 1\n", "E3", "foo", "instruction", "entry segdef equ use"),
    (" LDA 1\n", "E3", "LDA", "small letters"),
    ("loop nop 0\n", "E3", "loop", "instruction", "a label ends with a colon"),
    ("compare lda table$,x1\n", "E3", "compare", "a label ends with a colon"),
    (" lda 262144\n", "E4", "262144", "from 0 to 262143"),
    (" dec 68719476736\n", "E4", "68719476736", "from -34359738368 to 68719476735"),
    (" oct 1000000000000\n", "E4", "1000000000000", "777777777777"),
    ("a: a:\n", "E5", "a", "second time", "line 1", "each symbol once"),
    ("a: nop 0\n equ a,1\n", "E5", "a", "line 1", "each symbol once"),
    (" entry a\n entry a\na: nop 0\n", "E5", "a", "entry or segdef", "line 1"),
    (" lda a\n", "E6", "a", "a label of this source", "SEGMENT$NAME"),
    (" equ a,b\n equ b,1\n", "E6", "b", "defined above"),
    (" equ a,*\n", "E7", "*", "a number"),
    (" lda pr1|16384\n", "E7", "16384", "from -16384 to 16383"),
    (" lda -131073\n", "E7", "-131073", "from -131072 to 262143"),
    ("a: lda a+a\n", "E7", "a+a", "one label"),
    (" lda con$write+a\na: nop 0\n", "E7", "a", "a number"),
    (" use link\n lda 1\n", "E7", "lda", "link", "section text"),
    (" entry a\n equ a,1\n", "E7", "a", "a label of the text section"),
    (" segdef a\n equ a,1\n", "E7", "a", "a label"),
    (" lda *static$a\n", "E7", "*static$a", "use static"),
    (" use link\n dec 1\n use static\n", "E7", "use static", "only one of them"),
    (" bss a,262143\n", "E8", "bss a,262143", "258,048 words"),
)

FRAMES, WORK = "frames 24\n", "work >u\n"
SEGMENT = "segment >u a a object re 4 4 4\n"
FALLING = "segment >u a a object re 4 3 4\n"
START = "start 4 a$b\n"
LINE = "segment DIR NAME FILE KIND MODE R1 R2 R3"
BOOTS = rows(
    "boot",
    (FRAMES + WORK + "segmnt >u a a data r 4 4 4\n" + START, "D3", "segmnt", LINE, "one of frames"),
    (FRAMES + WORK + "segment >u a a data r 4 4 8\n" + START, "D3", "8", "octal digit", LINE),
    (FRAMES + WORK + "segment >u a a objekt r 4 4 4\n" + START, "D3", "objekt", "object, gate or"),
    (FRAMES + WORK + "segment >u a a object er 4 4 4\n" + START, "D3", "er", "in this order"),
    (
        FRAMES + WORK + "segment >u a a  object re 4 4 4\n" + START,
        "D3",
        "segment >u a a object re 4 4 4",
        "single blanks",
        LINE,
    ),
    (
        FRAMES + WORK + "segment >u a a object re 4 4\n" + START,
        "D3",
        "segment >u a a object re 4 4",
        "R3",
        "one octal digit",
        LINE,
    ),
    ("frames\n" + WORK + SEGMENT + START, "D1", "frames", "frames N", "from 1 to 8192"),
    ("frames 9000\n" + WORK + SEGMENT + START, "D1", "9000", "from 1 to 8192"),
    ("frame 24\n" + WORK + SEGMENT + START, "D1", "frame", "one of frames, work"),
    (FRAMES + SEGMENT + START, "D1", "segment >u a a object re 4 4 4", "work DIR"),
    (FRAMES + WORK + SEGMENT + "library >u\n" + START, "D1", "library >u", "name NAME"),
    (FRAMES + WORK + SEGMENT + START + SEGMENT, "D1", "start 4 a$b", "the end of the text"),
    (FRAMES + WORK + SEGMENT + "name .b\n" + START, "D1", ".b", "not beginning with a full stop"),
    (FRAMES + WORK + SEGMENT + "start 4 a\n", "D1", "a", "RING NAME$ENTRY", "a $ between them"),
    (FRAMES + WORK + SEGMENT + "start 4 a$b", "D1", "start 4 a$b", "line feed"),
    (FRAMES + WORK + SEGMENT + "start 4 a$b \n", "D1", "start 4 a$b ", "single blanks"),
    (FRAMES + WORK + SEGMENT + "name a\n" + START, "D2", "a", "line 3", "each name once"),
    (FRAMES + "work >v\n" + SEGMENT + START, "D3", ">v", LINE),
    (FRAMES + WORK + FALLING + START, "D4", "object re 4 3 4", "R1 <= R2"),
    (FRAMES + WORK + "segment >u a a gate r 4 4 5\n" + START, "D4", "gate r 4 4 5", "mode with e"),
    (FRAMES + WORK + "segment >u a a gate re 4 5 5\n" + START, "D4", "gate re 4 5 5", "R2 < R3"),
    (
        FRAMES + WORK + SEGMENT + "".join(f"name n{n}\n" for n in range(8)) + START,
        "D5",
        "name n7",
        "at most 7 further names",
    ),
    (FRAMES + WORK + SEGMENT, "D6", "segment >u a a object re 4 4 4", "start RING NAME$ENTRY"),
    ("frames 23\n" + WORK + SEGMENT + START, "U1", "frames 23", "at least 24"),
    (FRAMES + WORK + SEGMENT + "start 4 b$b\n", "U3", "b", "working directory or a library"),
    (FRAMES + WORK + SEGMENT + "start 5 a$b\n", "U3", "a", "ring 5", "from R1 to R2"),
    (FRAMES + WORK + "segment >u a a object r 4 4 4\n" + START, "U3", "r", "with e"),
    (FRAMES + WORK + SEGMENT + "start 4 a$zz\n", "U3", "zz", "entry or segdef"),
    (FRAMES + WORK + "segment >u a a data re 4 4 4\n" + START, "U4", "a", "an object or a gate"),
    (FRAMES + WORK + SEGMENT + "segment >u n n data r 4 4 4\n" + START, "F1", "n", "of this name"),
)

BINDS = rows(
    "bind",
    ("object\n", "B1", "object", "object NAME"),
    ("retain one\n", "B1", "retain one", "object NAME"),
    ("object a\nobjects b\n", "B1", "objects", "one of version, object, retain"),
    ("object a\nretain one\nobject b\n", "B1", "object b", "retain NAME"),
    ("version 3\nobject a\n", "B1", "3", "version 2"),
    ("object a\nretain one", "B1", "retain one", "line feed"),
    ("object a b\n", "B1", "b", "one word too many", "object NAME"),
    ("object a\nobject a\n", "B3", "a", "each object name once", "line 1"),
    ("object a\nobject b\nretain both\n", "B3", "both", "one component alone"),
    ("object a\nretain zz\n", "B5", "zz", "entry or segdef"),
    ("object zz\n", "F1", "zz", "a file of this name"),
)

LIST = "segment >udd>demo main\n"
ACCESS = rows(
    "access",
    ("term *.*.* r\n", "C1", "term *.*.* r", "segment DIR NAME"),
    (LIST + "term\n", "C1", "term", "term TERM MODE"),
    (LIST + "term Jones.Demo r\n", "C1", "Jones.Demo", "Person.Project.tag"),
    (LIST + "term Jones.Demo.A r\n", "C1", "Jones.Demo.A", "one small letter"),
    (LIST + "term *.*.* rep\n", "C1", "rep", "r e w in this order"),
    (LIST + "tern *.*.* r\n", "C1", "tern", "one of segment, term"),
    (LIST.replace("main", "ma-n"), "C1", "ma-n", "letters, digits, _ and full stops"),
    (LIST + LIST, "C2", ">udd>demo main", "each segment once", "line 1"),
    (LIST + "term *.*.* r\nterm *.*.* w\n", "C2", "*.*.*", "each term once", "line 2"),
    ("segment >udd>demo other\n", "C3", ">udd>demo other", "segment line of boot"),
)
