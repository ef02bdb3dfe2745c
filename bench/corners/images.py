"""Bare images of the slow corners."""

from m36lib.made_images import its, op, sdw

FETCHED = 15  # pairs that each instruction goes through
BLOCK = 64  # words from one of the segments to the next
CODE, FIRST_DATA = 1, 2
TABLE_WORDS = 1024


def chain_words(count):
    """The pairs of segments that lead from one to the next, in a ring: their words by segment."""
    return [its((segment + 1) % count + FIRST_DATA, 0, tag=0o20) for segment in range(count)]


def chains(count):
    """A loop of `lda` instructions, each through pairs in segment after segment, until all `count`
    segments were gone through. The last pair of each chain has no tag."""
    code, data = [], chain_words(count)
    entries = []
    for number in range(0, count, FETCHED):
        last = min(number + FETCHED, count) - 1
        data[last] = its(data[last][0] >> 18, 2)
        entries.append(number)
    pairs = 2 * (len(entries) + 1)
    for place, number in enumerate(entries):
        code.append(op("lda", pairs + 2 * place, 0o20))
    code.append(op("tra", 0))
    code += [0] * (pairs - len(code))
    for number in entries:
        code += its(number + FIRST_DATA, 0, tag=0o20)
    return image_of(code, data)


def image_of(code, data):
    """An image with code in segment 1 and each of the pairs in an unpaged segment of its own."""
    code_at = TABLE_WORDS
    first = code_at + 1024
    words = {2 * CODE: sdw(code_at)}
    for number, pair in enumerate(data):
        at = first + BLOCK * number
        words[2 * (number + FIRST_DATA)] = sdw(at, bound=3)
        words[at] = (*pair, 0o5, 0)
    for offset in range(0, len(code), 8):
        words[code_at + offset] = tuple(code[offset : offset + 8])
    frames = (first + BLOCK * len(data)) // 1024 + 1
    bound = TABLE_WORDS // 16 - 1
    head = [f"core {frames}", f"dbr {0:012o} {bound << 21 | 1 << 16:012o}", "start 00001 0 000000"]
    lines = [
        f"at {at:08o} " + " ".join(f"{word:012o}" for word in run)
        for at, run in sorted(words.items())
    ]
    return "\n".join([*head, *lines, ""])


def full_core():
    """A loop over the largest core, of which no frame is zero."""
    head = "core 16384\ndbr 000000000000 000000200000\nstart 00001 0 000000\n"
    table = "at 00000002 000000400004 000006700000\nat 00000040 000000710000\n"
    rest = (f"at {1024 * frame:08o} {frame:012o}\n" for frame in range(1, 16384))
    return head + table + "".join(rest)
