"""Bare images for rules that neither the examples nor the vectors reach.

In each, segment 1 executes from word 0 on, at core word 1000 (octal); segment 2 is what it refers
to, at core word 2000, and the pair at word 100 of segment 1 points to it."""

from .fields import HALF_WORD, ITS_TAG
from .table import TABLE

CODE, DATA, PAIR, SIZE = 0o1000, 0o2000, 0o100, 0o10000
CODES = {row.name: key for key, row in TABLE.items()}
DBR = (0, 15, 1)


def op(name, address=0, tag=0, pr=None):
    """The word of an instruction."""
    code, bit_27 = CODES[name]
    if pr is not None:
        address = pr << 15 | address
    return address << 18 | code << 9 | bit_27 << 8 | (pr is not None) << 6 | tag


def sdw(address, rings="077", mode="rewp", bound=31, gate=None, paged=False, live=True):
    """The two words of a descriptor; `gate` is its call limiter."""
    even = address << 12 | int(rings, 8) << 3 | live << 2
    flags = sum(1 << 20 - "rewp".index(letter) for letter in mode)
    odd = bound << 21 | flags | (not paged) << 16 | (gate is None) << 15 | (gate or 0)
    return even, odd


def its(segment, word, ring=0, bit=0, tag=0):
    return segment << 18 | ring << 15 | ITS_TAG, word << 18 | bit << 9 | tag


def words_at(place, words):
    return {place + offset: word for offset, word in enumerate(words)}


def image(code, data=None, second=None, pair=None, ring=0, dbr=DBR, more=None, segment=1):
    """The text of an image. `data` are further words of core by their addresses."""
    address, bound, stack = dbr
    table = address if address < SIZE else address - (1 << 24)
    words = words_at(CODE, code)
    words |= words_at(CODE + PAIR, pair or its(2, 0))
    for number, found in {1: sdw(CODE), 2: second or sdw(DATA), **(more or {})}.items():
        words |= {at: word for at, word in words_at(table + 2 * number, found).items() if at >= 0}
    words |= data or {}
    lines = ["core 4", f"dbr {address << 12:012o} {bound << 21 | 1 << 16 | stack:012o}"]
    lines += [f"start {segment:05o} {ring} 000000"]
    lines += [f"at {at:08o} {word:012o}" for at, word in sorted(words.items()) if at < SIZE]
    return "\n".join(lines) + "\n"


def by_pair(name, **others):
    """An image whose first instruction goes through the pair."""
    return image([op(name, PAIR, 0o20)], **others)


def paged(*frames, f=True):
    """The page table words of frames, from core word 3000 on."""
    return words_at(0o3000, [frame << 22 | f << 2 for frame in frames])


PAGED = sdw(0o3000, paged=True, bound=127)
EPP1, EPP2, AT_PR1 = op("epp1", PAIR, 0o20), "epp2", 1
GATE = sdw(DATA, "115", "re", 0o37777, 0o20000)


def places():
    """Table words and places: name, image, steps."""
    yield "brackets of ABSA", by_pair("absa", second=sdw(DATA, "547")), 1
    yield "page table at the end of core", by_pair("lda", second=sdw(SIZE, paged=True)), 1
    yield "page table past the end of core", by_pair("lda", second=sdw(SIZE + 9, paged=True)), 1
    yield "odd word past the end of core", by_pair("lda", dbr=(SIZE - 5, 15, 1)), 1
    low_bits = words_at(0o3000, [(1 << 4 | 13) << 18 | 4]) | {DATA: 5}
    yield "low bits of a page's address", by_pair("lda", second=PAGED, data=low_bits), 1
    wrapped = image([op("lda", 5)], dbr=((1 << 24) - 4, 15, 1), second=sdw(CODE), segment=2)
    yield "descriptors that wrap", wrapped, 1
    itself = words_at(DATA, [1 << 22 | 4])
    own_table = sdw(DATA, paged=True, bound=63)
    yield "a page table word that sees its mark", by_pair("lda", second=own_table, data=itself), 1
    long = sdw(DATA, bound=0o37777)
    yield "a long segment", by_pair("lda", second=long, pair=its(2, 0o400000)), 1
    yield "a segment of 15 bits", by_pair("lda", pair=its(0o40002, 0)), 1
    limiter = by_pair("call6", second=GATE, pair=its(2, 0o10000), ring=4)
    yield "a call limiter of 14 bits", limiter, 1
    gate = by_pair("call6", second=GATE, ring=4, dbr=(0, 15, 0o4001))
    yield "a stack of 12 bits", gate, 1
    for name in ("tra", "call6"):
        there = {"second": PAGED, "pair": its(2, 0o2001)}
        yield f"no mark by {name}", by_pair(name, data=paged(2, 2), **there), 1
        yield f"no page by {name}", by_pair(name, data=paged(2, 2, f=False), **there), 2


def chains():
    """Addresses: name, image, steps."""
    yield "a pointer of ring 0", image([op("lda", 0, pr=0)], ring=4, more={0: sdw(DATA, "004")}), 1
    held = image([op("lda", 0o20, 0o60)], data={CODE + 0o20: 0o30 << 18 | 3, CODE + 0o30: 5})
    yield "a held register of 0", held, 1
    bits = {"pair": its(1, 0o200, bit=9), "data": {CODE + 0o200: 0o30 << 18 | 2 << 6}}
    yield "the bit of a plain word", image([EPP1, op(EPP2, 0, 0o20, pr=1)], **bits), 2
    yield "the bit of a tally word", image([EPP1, op(EPP2, 0, 0o56, pr=1)], **bits), 2
    tally = {CODE + 0o200: 0o300 << 18 | 5 << 6 | 0o45, CODE + 0o300: 7}
    for tag in (0o53, 0o44):
        yield f"an increment by tag {tag:o}", image([op("lda", 0o200, tag)], data=tally), 1
    itself = {CODE + 0o200: 0o200 << 18 | 5 << 6}
    for name in ("aos", "stx1", "sxl1", "lda", "sta"):
        word = image([op("ldx1", PAIR), op(name, 0o200, 0o56)], data=itself)
        yield f"a tally word that is the operand of {name}", word, 2


def effects():
    """Effects: name, image, steps."""
    least = {DATA: 1 << 35, CODE + 0o200: 3 << 34}
    yield "a sum at the lower end", image([op("lda", 0o200), op("ada", 0o200)], data=least), 2
    bits = {CODE + 0o200: 0o3000003, CODE + 0o201: 0o5000005}
    for name in ("orsa", "orsx1", "ora", "ersa", "ansa", "ersx1"):
        code = [op("lda", 0o200), op("ldx1", 0o200), op(name, 0o201)]
        yield f"bits of {name}", image(code, data=bits), 3
    pointers = words_at(DATA, its(3, 5) * 8)
    yield "rings of LPRI", by_pair("lpri", second=sdw(DATA, "277"), data=pointers), 1
    packed = {DATA: 0o400002000005}
    yield "a packed pointer with bit 0 on", by_pair("lprp1", data=packed), 1
    yield "the ring of LPRP", by_pair("lprp1", data={DATA: 0o2000005}, pair=its(2, 0, 3)), 1
    yield "an address of segment 0", image([op("epaq", 5, pr=0)]), 1


def tags():
    """Each tag, with another value in each register: name, image, steps."""
    values = [0o11 << 18 | 0o22, 0o33 << 18 | 0o44] + [0o50 + number << 18 for number in range(8)]
    loads = ["lda", "ldq"] + [f"ldx{number}" for number in range(8)]
    code = [op(name, 0o140 + number) for number, name in enumerate(loads)]
    data = words_at(CODE + 0o140, values)
    data |= words_at(CODE + 0o200, [0o400 + number << 18 for number in range(0o100)])
    data |= words_at(CODE + 0o400, range(1, 0o101))
    for tag in range(64):
        yield f"tag {tag:02o}", image([*code, op("lda", 0o200, tag)], data=data), len(code) + 1


def large():
    """An image of the largest core, whose first descriptor begins at the last word."""
    last = (1 << 24) - 1
    even, odd = sdw(CODE)
    words = {0: odd, CODE: op("lda", 5), CODE + 5: HALF_WORD, last: even}
    lines = ["core 16384", f"dbr {last - 2 << 12:012o} {15 << 21 | 1 << 16:012o}"]
    lines += ["start 00001 0 000000"]
    lines += [f"at {at:08o} {word:012o}" for at, word in sorted(words.items())]
    yield "a descriptor that wraps", "\n".join(lines) + "\n", 1


def all_images():
    for kind in (places, chains, effects, tags, large):
        yield from kind()
