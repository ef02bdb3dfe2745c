"""Inputs whose names meet in a hash table, for each kind of table, and as many ordinary names.

A kind of key is what a table hashes: a name, a name as an object spells it, a link, a name in a
ring, a segment of a directory, a descriptor. The start of a table's hashes is the digest of the
input that its keys come from, by SHA-512/256. So names that meet cannot be searched for one by one,
as each name changes the start. What can be done is to try one input after another
(`search_inputs`).

Before, all tables had the same start. Names that met then are still tried (`met_before`)."""

import functools
import hashlib
import pathlib
import subprocess
import tempfile
import time
from typing import Callable, NamedTuple

from corners.folders import boot
from corners.measuring import Failed
from corners.objects import object_of, packed, section_with_names

HERE = pathlib.Path(__file__).resolve().parent
GROUP_LOAD = 9  # entries that a group of slots holds on average before the table grows
NAMES_OF_SEGMENT = 8
PROCESSES = 8
DIGITS = "0123456789abcdefghijklmnopqrstuvwxyz"


def groups_of(count):
    """The groups of slots of a table with this number of entries."""
    groups = 1
    while GROUP_LOAD * groups < count:
        groups *= 2
    return groups


def compiled(source, folder):
    """The program in C of this name. Needs `cc`."""
    program = pathlib.Path(folder) / source
    try:
        subprocess.run(["cc", "-O2", "-o", program, HERE / f"{source}.c"], check=True)
    except (OSError, subprocess.CalledProcessError) as error:
        raise Failed(f"{source}.c cannot be compiled: {error}") from error
    return program


@functools.cache
def met_before(key, count):
    """Names of 7 characters that met in a table of so many of them while the start was fixed."""
    with tempfile.TemporaryDirectory() as folder:
        words = [compiled("fixed_start", folder), key, str(count), str(groups_of(count))]
        done = subprocess.run(words, stdout=subprocess.PIPE, text=True)
    names = tuple(done.stdout.split())
    if len(names) < count:
        raise Failed(f"only {len(names)} names of kind {key} that meet were found")
    return names


def ordinary_names(count, salt=0):
    """Names of 7 characters in rising order; the last one has the salt."""
    return (*(f"aa{number:05}" for number in range(count - 1)), f"zz{salted(salt)}")


def ordinary_descriptors(count, salt=0):
    """Pairs of words, each pair as one number in hexadecimal; the last one has the salt."""
    spread = lambda number: number * 0xA5_9E3779B97F4A7C15 % (1 << 72)
    return (*(f"{spread(number):018x}" for number in range(1, count)), f"{salt:018x}")


def salted(salt):
    """A number in five digits."""
    digits = ""
    for _ in range(5):
        salt, digit = divmod(salt, len(DIGITS))
        digits = DIGITS[digit] + digits
    return digits


def digest(*pieces):
    return hashlib.new("sha512_256", b"".join(pieces)).digest()


class Cost(NamedTuple):
    """What adding the names to a table costs: keys that are compared, and groups visited."""

    keys: int
    groups: int
    salt: int


def search_inputs(kind, seconds):
    """Tries inputs for so many seconds, and gives the costs of all of them in order of the salt."""
    names = kind.names(kind.count)
    costs = []
    end = time.monotonic() + seconds
    with tempfile.TemporaryDirectory() as folder:
        program = compiled("drawn_start", folder)
        with subprocess.Popen(
            [program, kind.key], stdin=subprocess.PIPE, stdout=subprocess.PIPE, text=True
        ) as child:
            child.stdin.write("\n".join([str(len(names) - 1), *names[:-1], ""]))
            while not costs or time.monotonic() < end:
                salt = len(costs)
                start = kind.start(kind.files(kind.names(kind.count, salt)))
                child.stdin.write(f"{start.hex()}\n")
                child.stdin.flush()
                groups, keys = map(int, child.stdout.readline().split())
                costs.append(Cost(keys, groups, salt))
            child.stdin.close()
    return costs


# ---- the files that have names: of each kind of table, by the names

def source_of_definitions(names):
    lines = [f" segdef {name}\n" for name in names] + [f"{name}:\n" for name in names]
    return {"source.alm": "".join(lines).encode()}


def source_of_links(names):
    return {"source.alm": "".join(f" lda {name}$\n" for name in names).encode()}


def object_of_definitions(names):
    section = section_with_names(names)
    return {"object": packed(object_of(section)), "section": packed(section)}


def refused_object(names):
    """The same with a wrong word at the head of the linkage section: names are looked for that
    are spelled twice where an object is refused."""
    section = section_with_names(names)
    words = object_of(section)
    words[len(section)] = 1
    return {"object": packed(words), "section": packed(section)}


def bind_file(names):
    lines = ["object object\n", *(f"retain {name}\n" for name in names)]
    return {"all.bind": "".join(lines).encode(), **object_of_definitions(names)}


def access_list(names):
    return {
        "boot": boot(24, []),
        "main.alm": b" entry start\nstart: dis 0\n",
        "acl": "".join(f"segment >u {name}\n" for name in names).encode(),
    }


def initiated_names(names):
    """Segments that have these names, each eight of them, and an object that refers to each name
    in turn, again and again: the words of its links are put back after each turn."""
    lines = ["frames 1000\n", "work >u\n", "segment >u main main object re 4 4 4\n"]
    for number, name in enumerate(names):
        first = number % NAMES_OF_SEGMENT == 0
        lines.append(f"segment >u {name} data data r 4 4 4\n" if first else f"name {name}\n")
    lines.append("start 4 main$start\n")
    uses = "".join(f" epp2 {name}$\n" for name in names)
    return {
        "boot": "".join(lines).encode(),
        "main.alm": f" entry start\nstart: nop 0\n{uses} tra start\n".encode(),
        "data": packed([0]),
    }


def processes(descriptors):
    """Eight processes, each with an eighth of these descriptors, and the bytes of all of them."""
    numbers = [int(descriptor, 16) for descriptor in descriptors]
    each = len(numbers) // PROCESSES
    bound = 2 * each // 16 - 1
    lines = ["core 16384"]
    for process in range(PROCESSES):
        base = 2 * each * process << 12
        lines.append(f"process {base:012o} {bound << 21 | 1 << 16:012o} 00001 4 000000")
    for first in range(0, len(numbers), 4):
        four = numbers[first : first + 4]
        words = (f"{number >> 36:012o} {number % (1 << 36):012o}" for number in four)
        lines.append(f"at {2 * first:08o} " + " ".join(words))
    keys = b"".join(number.to_bytes(16, "little") for number in numbers)
    return {"processes": "\n".join([*lines, "turns 1 0", ""]).encode(), "keys": keys}


# ---- the starts of the tables of these files

def start_of_source(files):
    return digest(files["source.alm"])


def start_of_object(files):
    """That of its words after the text, of which it has none."""
    return digest(files["object"])


def start_of_section(files):
    return digest(files["section"])


def start_of_bound(files):
    """That of all components together, of which there is one."""
    return digest(digest(), start_of_object(files))


def start_of_access(files):
    return digest(files["acl"])


def start_of_boot(files):
    return digest(files["boot"])


def start_of_keys(files):
    return digest(files["keys"])


class Kind(NamedTuple):
    """A kind of table: the command that fills it, its kind of key, how many keys, its files by
    the names, its start by the files, and the salt of which the most names met in ten minutes."""

    name: str
    what: str
    words: str
    key: str
    count: int
    files: Callable
    start: Callable
    salt: int = 0
    names: Callable = ordinary_names

    def meeting(self):
        return self.files(met_before(self.key, self.count))

    def drawn(self):
        return self.files(self.names(self.count, self.salt))

    def ordinary(self):
        return self.files(self.names(self.count))


KINDS = (
    Kind("source", "`alm` of 20,000 definitions",
         "alm source", "name", 20_000, source_of_definitions, start_of_source, 143),
    Kind("object", "`print` of 25,000 definitions",
         "print object", "name", 25_000, object_of_definitions, start_of_object, 48),
    Kind("spelled", "`print` of 25,000 definitions in an object that is refused",
         "print object", "spelled", 25_000, refused_object, start_of_section, 31),
    Kind("bind", "`bind` of 25,000 definitions, all of them kept",
         "bind all", "name", 25_000, bind_file, start_of_bound, 15),
    Kind("links", "`alm` of 8,188 links",
         "alm source", "link", 8_188, source_of_links, start_of_source, 929),
    Kind("names", "`run` of 4,000 names that a ring initiates",
         "run", "ring", 4_000, initiated_names, start_of_boot, 1301),
    Kind("access", "`access` with 25,000 segments in the access lists",
         "access A.B.c", "place", 25_000, access_list, start_of_access, 219),
    Kind("descriptors", "`procs` of 262,144 descriptors of 8 processes",
         "procs processes", "descriptor", 262_144, processes, start_of_keys,
         7, ordinary_descriptors),
)
