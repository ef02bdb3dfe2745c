"""The smallest input that gives each code, and what is printed then.

An input is a line for a shell in an empty folder, where `m36` is the program and `words` is
tools/words. `docs/check PROGRAM` runs each as docs/CODES.md has it.
"""

INPUTS = {
    "F1": (
        r"m36 print a",
        "BadFile a F1 0 0",
    ),
    "F2": (
        r"head -c 16777217 /dev/zero > a; m36 print a",
        "BadFile a F2 0 0",
    ),
    "T3": (
        r"echo > a; m36 print a",
        "BadFile a T3 1 0",
    ),
    "T4": (
        r"printf 1234a > a; m36 print a",
        "BadFile a T4 4 0",
    ),
    "F3": (
        r"head -c 1179653 /dev/zero > a; m36 print a",
        "BadFile a F3 0 0",
    ),
    "I1": (
        r": > a; m36 audit a",
        "BadFile a I1 1 0",
    ),
    "I2": (
        r"echo core 0 > a; m36 audit a",
        "BadFile a I2 1 0",
    ),
    "I3": (
        r"printf 'core 1\ndbr 000000000000 000000200000\nstart 00000 0 000000\nat "
        r"00002000 000000000000\n' > a; m36 audit a",
        "BadFile a I3 4 0",
    ),
    "P1": (
        r": > a; m36 procs a",
        "BadFile a P1 1 0",
    ),
    "P2": (
        r"printf 'core 1\nprocess 000000000000 000000200000 00000 0 000000\nturns 1 1\n' "
        r"> a; m36 procs a",
        "BadFile a P2 3 0",
    ),
    "D1": (
        r"echo frames > boot; m36 audit",
        "BadFile boot D1 1 0",
    ),
    "D2": (
        r"printf 'frames 24\nwork >u\nsegment >u a a data r 4 4 4\nname a\n' > boot; m36 "
        r"audit",
        "BadFile boot D2 4 0",
    ),
    "D3": (
        r"printf 'frames 24\nwork >u\n' > boot; m36 audit",
        "BadFile boot D3 2 0",
    ),
    "D4": (
        r"printf 'frames 24\nwork >u\nsegment >u a a data r 4 3 4\n' > boot; m36 audit",
        "BadFile boot D4 3 0",
    ),
    "D5": (
        r"printf 'frames 24\nwork >u\nsegment >u a a data r 4 4 4\n' > boot; printf 'name "
        r"%s\n' b c d e f g h i >> boot; m36 audit",
        "BadFile boot D5 11 0",
    ),
    "D6": (
        r": > boot; m36 audit",
        "BadFile boot D6 1 0",
    ),
    "C1": (
        r"printf 'frames 24\nwork >u\nsegment >u a a data r 4 4 4\nstart 4 a$b\n' > boot; "
        r"echo term > acl; m36 access A.B.a",
        "BadFile acl C1 1 0",
    ),
    "C2": (
        r"printf 'frames 24\nwork >u\nsegment >u a a data r 4 4 4\nstart 4 a$b\n' > boot; "
        r"printf 'segment >u a\nsegment >u a\n' > acl; m36 access A.B.a",
        "BadFile acl C2 2 0",
    ),
    "C3": (
        r"printf 'frames 24\nwork >u\nsegment >u a a data r 4 4 4\nstart 4 a$b\n' > boot; "
        r"echo 'segment >u b' > acl; m36 access A.B.a",
        "BadFile acl C3 1 0",
    ),
    "U1": (
        r"printf 'frames 23\nwork >u\nsegment >u a a data r 4 4 4\nstart 4 a$b\n' > boot; "
        r": > a; m36 audit",
        "BadFile boot U1 0 0",
    ),
    "U2": (
        r": > a.alm; m36 alm a; printf 'frames 24\nwork >u\nsegment >u a a gate e 0 0 5\n"
        r"start 4 a$b\n' > boot; m36 audit",
        "BadFile boot U2 64 0",
    ),
    "U3": (
        r": > a; printf 'frames 24\nwork >u\nsegment >u a a data r 4 4 4\nstart 4 b$c\n' "
        r"> boot; m36 audit",
        "BadFile boot U3 0 0",
    ),
    "U4": (
        r": > a; printf 'frames 24\nwork >u\nsegment >u a a object e 4 4 4\nstart 4 a$b\n"
        r"' > boot; m36 audit",
        "BadFile boot U4 64 0",
    ),
    "S1": (
        r"printf 'core 1\ndbr 000000000000 000000200000\nstart 00000 0 000000\n' > a; "
        r"head -c 1048577 /dev/zero > b; m36 debug a < b",
        "BadFile stdin S1 0 0",
    ),
    "O1": (
        r": > a; m36 print a",
        "BadFile a O1 0 0",
    ),
    "O2": (
        r"head -c 32 /dev/zero > a; m36 print a",
        "BadFile a O2 0 0",
    ),
    "O3": (
        r": > a.alm; m36 alm a; words a 14=100; m36 print a",
        "BadFile a O3 12 0",
    ),
    "O4": (
        r": > a.alm; m36 alm a; words a 14=1; m36 print a",
        "BadFile a O4 0 0",
    ),
    "O5": (
        r": > a.alm; m36 alm a; words a 0=1; m36 print a",
        "BadFile a O5 0 0",
    ),
    "O6": (
        r"printf ' segdef a\na:\n' > a.alm; m36 alm a; words a 4=0; m36 print a",
        "BadFile a O6 4 0",
    ),
    "O7": (
        r": > a.alm; m36 alm a; words a 3=0; m36 print a",
        "BadFile a O7 3 0",
    ),
    "O8": (
        r": > a.alm; m36 alm a; words a 12=1; m36 print a",
        "BadFile a O8 0 0",
    ),
    "E1": (
        r"echo '#' > a.alm; m36 alm a",
        "BadFile a.alm E1 1 1",
    ),
    "E2": (
        r"echo ' lda 1,' > a.alm; m36 alm a",
        "BadFile a.alm E2 1 6",
    ),
    "E3": (
        r"echo ' a' > a.alm; m36 alm a",
        "BadFile a.alm E3 1 2",
    ),
    "E4": (
        r"echo ' lda 262144' > a.alm; m36 alm a",
        "BadFile a.alm E4 1 6",
    ),
    "E5": (
        r"echo 'a: a:' > a.alm; m36 alm a",
        "BadFile a.alm E5 1 4",
    ),
    "E6": (
        r"echo ' lda a' > a.alm; m36 alm a",
        "BadFile a.alm E6 1 6",
    ),
    "E7": (
        r"echo ' equ a,*' > a.alm; m36 alm a",
        "BadFile a.alm E7 1 8",
    ),
    "E8": (
        r"echo ' bss a,262143' > a.alm; m36 alm a",
        "BadFile a.alm E8 1 1",
    ),
    "B1": (
        r": > a.bind; m36 bind a",
        "BadFile a.bind B1 1 0",
    ),
    "B3": (
        r": > a.alm; m36 alm a; printf 'object a\nobject a\n' > b.bind; m36 bind b",
        "BadFile b.bind B3 2 0",
    ),
    "B4": (
        r"echo ' bss a,130000' > a.alm; m36 alm a; cp a b; printf 'object a\nobject b\n' "
        r"> c.bind; m36 bind c",
        "BadFile c.bind B4 0 0",
    ),
    "B5": (
        r": > a.alm; m36 alm a; printf 'object a\nretain b\n' > b.bind; m36 bind b",
        "BadFile b.bind B5 2 0",
    ),
    "L1": (
        r"printf ' entry b\nb: oct 000000235046\n' > a.alm; m36 alm a; printf 'frames 24\n"
        r"work >u\nsegment >u a a object e 4 4 4\nstart 4 a$b\n' > boot; m36 run",
        "end link L1 1",
    ),
    "L2": (
        r"printf ' entry b\nb: lda c$\n' > a.alm; m36 alm a; printf 'frames 24\nwork >u\n"
        r"segment >u a a object e 4 4 4\nstart 4 a$b\n' > boot; m36 run",
        "end link L2 1",
    ),
    "L3": (
        r"printf ' entry b\nb: lda *text$c\n' > a.alm; m36 alm a; printf 'frames 24\nwork "
        r">u\nsegment >u a a object e 4 4 4\nstart 4 a$b\n' > boot; m36 run",
        "end link L3 1",
    ),
    "L4": (
        r": > c; printf ' entry b\nb: lda c$\n' > a.alm; m36 alm a; printf 'frames 24\n"
        r"work >u\nsegment >u a a object e 4 4 4\nsegment >u c c data r 1 1 1\nstart 4 "
        r"a$b\n' > boot; m36 run",
        "end link L4 1",
    ),
    "L5": (
        r": > c; printf ' entry b\nb: lda c$\n' > a.alm; m36 alm a; printf 'frames 24\n"
        r"work >u\nsegment >u a a object e 4 4 4\nsegment >u c c object e 4 4 4\nstart 4 "
        r"a$b\n' > boot; m36 run",
        "end link L5 1",
    ),
    "L6": (
        r"printf ' use static\n bss d,252000\n' > c.alm; m36 alm c; printf ' entry b\nb: "
        r"lda c$\n use static\n bss d,9999\n' > a.alm; m36 alm a; printf 'frames 24\nwork "
        r">u\nsegment >u a a object e 4 4 4\nsegment >u c c object e 4 4 4\nstart 4 a$b\n"
        r"' > boot; m36 run",
        "end link L6 1",
    ),
    "A1": (
        r"printf 'core 1\ndbr 000000000000 000000200000\nstart 00000 0 000000\nat "
        r"00000000 000000001004 000000200000\n' > a; m36 audit a",
        "audit no A1 00000",
    ),
    "A2": (
        r"printf 'core 1\ndbr 000000000000 000000200000\nstart 00000 0 000000\nat "
        r"00000000 000000000004\n' > a; m36 audit a",
        "audit no A2 00000000",
    ),
    "A3": (
        r"printf 'core 1\ndbr 000000000000 000000200000\nstart 00000 0 000000\nat "
        r"00000000 000000000004 000000200000\n' > a; m36 audit a",
        "audit no A3 00000000",
    ),
    "A4": (
        r"printf 'core 1\ndbr 000000000000 000000200000\nstart 00000 0 000000\nat "
        r"00000000 000000400004 000000200000 000000400004 000000200000\n' > a; m36 audit a",
        "audit no A4 00000040",
    ),
    "A5": (
        r"printf 'core 1\ndbr 000000000000 000000200000\nstart 00000 0 000000\nat "
        r"00000000 000000400014 000002300000\n' > a; m36 audit a",
        "audit no A5 00000",
    ),
    "A6": (
        r"printf 'core 1\ndbr 000000000000 000000200000\nstart 00000 0 000000\nat "
        r"00000000 000000400014 000002200000\n' > a; m36 audit a",
        "audit no A6 00000",
    ),
    "J2": (
        r"printf 'core 1\nprocess 000000000000 000000200000 00000 0 000000\nprocess "
        r"000000000000 000000200000 00000 0 000000\nturns 1 0\n' > a; m36 procs a",
        "audit no J2 00000000",
    ),
    "J3": (
        r"printf 'core 1\nprocess 000000000000 000000200000 00000 0 000000\nprocess "
        r"000000200000 000000200000 00000 0 000000\nat 00000000 000000400004 "
        r"000000200000\nat 00000020 000000401114 000000200000\nturns 1 0\n' > a; m36 "
        r"procs a",
        "audit no J3 00000040",
    ),
}
