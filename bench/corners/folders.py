"""Folders of the slow corners that boot: their files by name. An object is assembled from a source
NAME.alm before the run."""

from corners.objects import packed
from m36lib.made_images import its, op, words_at

PAGE = 1024
MOST_WORDS = 1 << 18
HOPS = 16  # pairs of the longest chain
CODE, DATA = 65, 66
RING = 4
CHAINS = 6


def boot(frames, segments):
    """A boot text with the object `main` and these segments."""
    lines = [f"frames {frames}", "work >u", "segment >u main main object re 4 4 4"]
    lines += [f"segment >u {name} {file} {kind}" for name, file, kind in segments]
    return "\n".join([*lines, "start 4 main$start", ""]).encode()


def with_code(frames, code, data):
    """A folder whose object goes to word 0 of `code`, with PR2 at word 0 of `data`."""
    segments = [("code", "code", "data re 4 4 4"), ("data", "data", "data rw 4 4 4")]
    return {
        "boot": boot(frames, segments),
        "main.alm": b" entry start\nstart: epp2 data$\n tra code$\n",
        "code": packed(code),
        "data": packed(data),
    }


def filled(size, words):
    """A list of words: those that are given by their places, and zeros."""
    return [words.get(place, 0) for place in range(size)]


def page_services():
    """A loop of six instructions, of which each refers to 17 or 18 pages and no two to the same:
    its own, 16 of pairs, and that of its operand. Under 24 frames each of them is put away."""
    code = words_at(0, [op(f"eax{n + 1}", PAGE * (HOPS + 1) * n) for n in range(CHAINS)])
    code |= {CHAINS: op("tra", PAGE - 1)}
    data = {}
    for number in range(CHAINS):
        loads = number % 2 == 0
        place = PAGE * number + (PAGE - 1 if loads else 0)
        code[place] = op("lda" if loads else "tra", 0, 0o20 | 0o10 | number + 1, pr=2)
        pages = range((HOPS + 1) * number, (HOPS + 1) * (number + 1))
        following = PAGE * ((number + 1) % CHAINS) + PAGE - 1
        end = its(DATA, PAGE * pages[-1], RING) if loads else its(CODE, following, RING)
        for page, beyond in zip(pages, pages[1:]):
            data |= words_at(PAGE * page, its(DATA, PAGE * beyond, RING, tag=0o20))
        data |= words_at(PAGE * pages[HOPS - 1], end)
    pages_of_data = CHAINS * (HOPS + 1)
    return with_code(24, filled(CHAINS * PAGE, code), filled(pages_of_data * PAGE, data))


def page_walk():
    """A loop that loads a word of each page of a segment of 256 pages."""
    code = [op("lda", 0, 0o11, pr=2), op("eax1", PAGE, 0o11), op("tra", 0)]
    return with_code(24, code, filled(MOST_WORDS, {MOST_WORDS - 1: 1}))


def snapped_links(sections):
    """A loop in which a link is snapped, where as many sections are laid, and made whole again."""
    names = [f"s{number}" for number in range(sections - 1)]
    place = 8 + 2 * (len(names) - 1)
    lines = [" entry start", f"start: ldaq pr4|{place}"]
    lines += [f" epp2 {name}$go" for name in names]
    lines += [f"loop: staq pr4|{place}", f" epp2 {names[-1]}$go", " tra loop", ""]
    return {
        "boot": boot(1000, [(name, "target", "object re 4 4 4") for name in names]),
        "main.alm": "\n".join(lines).encode(),
        "target.alm": b" entry go\ngo: nop 0\n",
    }


def segments_of_one_file():
    """As many segments as there may be, all but one of the same file of the largest size."""
    names = [f"d{number}" for number in range(511)]
    return {
        "boot": boot(24, [(name, "data", "data rw 4 4 4") for name in names]),
        "main.alm": b" entry start\nstart: dis 0\n",
        "data": packed([MOST_WORDS - place for place in range(MOST_WORDS)]),
    }
