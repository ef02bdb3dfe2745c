"""The sentence of each code: the part of the table of `m36lib.words` that CODES.md is made from."""

from m36lib.entries import group

CODE_GROUPS = (
    group(
        "Files",
        "IMAGES.md",
        '"Files"',
        (
            "F1",
            "the file is absent",
            "check the name and the folder; `print`, `bind` and a boot read what `alm` has written",
        ),
        (
            "F2",
            "the file has more than 16 MiB",
            "it is no file of this program: check the name",
        ),
        (
            "T3",
            "a file of this length is no file of words: two words are nine bytes, a last one five",
            "it is a text or was cut off: assemble or bind it again; only an object can be printed",
        ),
        (
            "T4",
            "the four bits after the last word are not zero",
            "the file was changed: make it again by `alm` or `bind`",
        ),
        (
            "F3",
            "the file has more than 262,144 words, so it fits no segment",
            "make two segments of it",
        ),
    ),
    group(
        "Bare images",
        "IMAGES.md",
        "",
        (
            "I1",
            "the line does not have its form, is out of order, or is missing",
            "compare the line with its form: digits, single blanks, a line feed at the end",
        ),
        ("I2", "the count of frames is out of its range", "give from 1 to 16,384 frames"),
        (
            "I3",
            "the addresses do not rise from line to line, or leave core",
            "sort the `at` lines by address, or give more frames",
        ),
    ),
    group(
        "Texts of processes",
        "MANUAL.md",
        "section 13",
        (
            "P1",
            "the line does not have its form, is out of order or missing, or a number is too large",
            "compare the line with its form; at most 10,000,000 events in all",
        ),
        ("P2", "a number is that of no process", "processes are numbered from 0"),
    ),
    group(
        "Boot texts",
        "BOOT.md",
        '"Codes"',
        (
            "D1",
            "the line does not have its form, or is out of order",
            "compare the line with its form; the order is frames, work, library, segment with its "
            "name lines, start",
        ),
        (
            "D2",
            "the directory has this name already",
            "rename one of the two segments",
        ),
        (
            "D3",
            "no segment line has this directory",
            "put a segment into the directory, or correct the segment line that should have it",
        ),
        (
            "D4",
            "the ring brackets do not fit",
            "R1 at most R2 at most R3; a gate has `e` in its mode, and R2 below R3",
        ),
        (
            "D5",
            "the text has too many lines of this kind",
            "at most 512 segments, 7 further names of a segment, and 16 libraries",
        ),
        ("D6", "the text ends without a start line", "end the text with `start RING NAME$ENTRY`"),
    ),
    group(
        "Access lists",
        "ACCESS.md",
        '"Codes" and "Commands"',
        (
            "C1",
            "the line does not have its form, or a term line is out of place",
            "compare the line with its form; a segment line comes first, then at most 16 terms",
        ),
        (
            "C2",
            "the segment has a list already, or its list has this term already",
            "remove one of the two: only the first could count",
        ),
        (
            "C3",
            "the boot text has no such segment",
            "a list names a segment by its directory and the name of its segment line",
        ),
    ),
    group(
        "Booting",
        "BOOT.md",
        '"Booting"',
        ("U1", "the boot text gives fewer than 24 frames", "give 24 frames or more"),
        (
            "U2",
            "a gate has no entry, or an entry bound over 16,383",
            "write `entrybound` after the entries of the gate, in its first 16,383 words",
        ),
        (
            "U3",
            "the machine can't start where the start line says",
            "the name must be in the working directory or a library, its object must define the "
            "entry, its mode must have `e`, and the ring must be from R1 to R2; with `--user` the "
            "access lists decide the mode",
        ),
        (
            "U4",
            "the file of a gate, or of the start, is no object",
            "`m36 print` says why; a start needs a segment that is `object` or `gate`",
        ),
    ),
    group(
        "Sessions",
        "SESSIONS.md",
        "",
        (
            "S1",
            "the input of the session has more than 1,048,576 bytes",
            "give fewer lines, or end them with `quit`",
        ),
    ),
    group(
        "Objects",
        "OBJECTS.md",
        '"What a reader refuses"',
        (
            "O1",
            "the file has fewer than seven words, so it is no object",
            "make the object by `alm` or `bind`",
        ),
        (
            "O2",
            "the map at the end of the file is not that of an object",
            "it is no object, or its end was cut off: make it again by `alm` or `bind`",
        ),
        (
            "O3",
            "a section ends past the map, or is shorter than its fixed words",
            "a word was changed: make the object again; the place is the word of the map",
        ),
        (
            "O4",
            "two sections share a word",
            "a word was changed: make the object again; the place is the shared word",
        ),
        (
            "O5",
            "the chain of definitions or expressions is broken, or a name is defined twice",
            "a word was changed: make the object again; the place is the wrong word",
        ),
        (
            "O6",
            "a name is not of its form",
            "a word was changed: make the object again; the place is where the name begins",
        ),
        (
            "O7",
            "a link, or the head of the linkage section, is not of its form",
            "a word was changed: make the object again; the place is the wrong word",
        ),
        (
            "O8",
            "some other word is not that of an object",
            "a word was changed: make the object again; the place is not known",
        ),
    ),
    group(
        "Sources",
        "ALM.md",
        '"Refusals"',
        (
            "E1",
            "a source may not have this character here",
            'remove the character; a comment begins with `"`',
        ),
        (
            "E2",
            "a label or an operand does not have its form",
            "compare the operand with its forms",
        ),
        (
            "E3",
            "there is no such operation",
            "a label needs its colon, and an operation a blank after it",
        ),
        ("E4", "a number is out of its range", "numbers are decimal, except those of `oct`"),
        (
            "E5",
            "the symbol is given a second time",
            "rename one of the two",
        ),
        (
            "E6",
            "the symbol is not defined",
            "define the symbol; one of another segment is written `segment$name`",
        ),
        (
            "E7",
            "a value, a symbol or an operation does not fit where it is",
            "use a number where one is required, and at most one label in a sum; ALM.md lists "
            "the causes",
        ),
        (
            "E8",
            "a section, or the object, is too long",
            "make two sources of it",
        ),
    ),
    group(
        "Bind files",
        "BIND.md",
        '"Bind files"',
        (
            "B1",
            "the line does not have its form or is out of order, or no object is named",
            "`version 2` first, if at all, then the objects, then the retained names",
        ),
        (
            "B3",
            "the name is given twice, or two components define it",
            "remove one of the two, or retain another name",
        ),
        ("B4", "the bound object is too large, or an offset does not fit", "bind fewer objects"),
        (
            "B5",
            "no component defines the retained name",
            "retain a name that an `entry` or `segdef` of a component defines",
        ),
    ),
    group(
        "Links",
        "LINKS.md",
        '"The answer"',
        (
            "L1",
            "the word with the fault tag is no link of this ring",
            "the program has run into its data, or has changed PR4",
        ),
        (
            "L2",
            "no directory that is searched has a segment of this name",
            "the search takes the caller's directory, the working directory, the libraries: is "
            "the segment in `boot`?",
        ),
        (
            "L3",
            "the segment that was found does not define the entry",
            "write `entry` or `segdef` in its source; a segment that is `data` defines none",
        ),
        (
            "L4",
            "the ring of the program may not use the segment that was found",
            "look at its brackets: the ring is above R3, or above R2 of a segment without `e`",
        ),
        (
            "L5",
            "the file of the segment that was found is no object",
            "`m36 print` says why; or let the segment be `data`",
        ),
        (
            "L6",
            "the linkage segment of the ring has no room for the section of the object",
            "put static words into a segment of their own",
        ),
    ),
    group(
        "Audits",
        "MANUAL.md",
        "sections 12 and 13",
        (
            "A1",
            "the ring brackets of a segment are out of order",
            "put R1, R2, R3 of that segment in order",
        ),
        (
            "A2",
            "a core word belongs to two tables",
            "put the page table elsewhere, or lower the bound of the DBR",
        ),
        (
            "A3",
            "a word of a segment is on a word of a table",
            "put the segment elsewhere, or lower its bound",
        ),
        (
            "A4",
            "two words of segments are on one core word",
            "put one segment elsewhere, or lower its bound; two names of one segment share one "
            "descriptor",
        ),
        (
            "A5",
            "a segment can be called from outside its read bracket and is no gate",
            "let G be off and give a call limiter (in `boot`: `gate`), or let R3 be R2",
        ),
        (
            "A6",
            "the ring that a gate enters has no stack",
            "give it segment 8 times STACK of the DBR plus R2 of the gate, read and written, R1 "
            "and R2 that ring",
        ),
        (
            "J2",
            "a table word of one process is a word of another process",
            "give each process descriptors of its own",
        ),
        (
            "J3",
            "two processes have different segments on one core word",
            "let the descriptors be equal words, or put the segments apart",
        ),
    ),
)

# Codes of calls in the code, which no command prints.
INNER_GROUP = group(
    "Codes that no command prints",
    "IMAGES.md",
    "",
    ("T1", "a byte is no digit", "`read_octal` and `read_decimal` of `m36_text` answer it"),
    ("T2", "the number is too large", "`read_octal` and `read_decimal` of `m36_text` answer it"),
    (
        "B2",
        "the object of an object line is not among those that are given",
        "`bind` of `m36_bind` answers it; the command reads what the file names",
    ),
)
