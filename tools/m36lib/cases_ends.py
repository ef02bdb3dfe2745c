"""The ends of drawn folders: of each the rings of `main` in which it can be, and the lines that
bring it about."""

from typing import Callable, NamedTuple

from .cases_source import octal_pair


class End(NamedTuple):
    """`add(source, layout, ring)` adds the lines to the source of `main`."""

    rings: range
    add: Callable


ANY, OUTER, UPPER, INNER = range(8), range(1, 8), range(2, 8), range(7)


def lines(*texts):
    return lambda source, layout, ring: source.add(*texts)


def by_pair(name, segment, word=0, above=0):
    """An instruction by a pair to a word of a segment, in a ring of the pair."""

    def add(source, layout, ring):
        pair = octal_pair(layout.numbers[segment], word, ring + above if above else 0)
        source.add(f"{name} {source.constant(pair)},*")

    return add


def tagged(tag):
    """A word of the text with a tag that faults."""
    return lambda source, layout, ring: source.add(f"lda {source.constant(f' oct {tag:o}')},*")


def lockup(source, layout, ring):
    """An indirect word that points to itself."""
    label = source.constant(" oct 0")
    source.constants[-1] = f"{label}:zero {label},16"
    source.add(f"lda {label},*")


def no_instruction(source, layout, ring):
    source.add(f"tra {source.constant(' oct 0')}")


def stop_by_call(source, layout, ring):
    source.add("call6 con_$stop")


def loaded(*after):
    """LDBR by the gate of ring 0, and instructions after it."""

    def add(source, layout, ring):
        source.call("con_$load")
        source.add(*after)

    return add


def with_marks(add):
    """The privileged instructions that go on are executed before the end."""

    def added(source, layout, ring):
        source.call("con_$mark")
        add(source, layout, ring)

    return added


def console(*before):
    def add(source, layout, ring):
        source.add(*before)
        source.add("call6 con_$write")

    return add


def console_of_low(source, layout, ring):
    label = source.constant(octal_pair(layout.numbers["low_"]))
    source.add(f"epp2 {label},*", "lda 4,dl", "stcd pr6|20", "call6 con_$write")


def written_to_end(source, layout, ring):
    source.write(256)
    stop_by_call(source, layout, ring)


def many_pages(source, layout, ring):
    """More pages than there are frames, and all of them again."""
    for _ in range(2):
        source.pages("big_", layout.big_pages)
        source.pages(None, 15)
    stop_by_call(source, layout, ring)


ENDS = {
    "dis": End(ANY, stop_by_call),
    "dis after a long line": End(ANY, written_to_end),
    "dis after many pages": End(ANY, many_pages),
    "dis after marks": End(ANY, with_marks(stop_by_call)),
    "link L1": End(ANY, tagged(0o46)),
    "link L2": End(ANY, lines("lda none_$x")),
    "link L3": End(ANY, lines("lda own_$nothing")),
    "link L3 of data": End(ANY, lines("lda data_$entry")),
    "link L3 of its own": End(ANY, lines("lda *text$nothing")),
    "link L4": End(OUTER, lines("lda low_$")),
    "link L5": End(ANY, lines("lda bad_$x")),
    "link L6": End(ANY, lines("lda huge1_$far", "lda huge2_$far")),
    "console too long": End(ANY, console("epp2 *", "lda 257,dl")),
    "console refused": End(OUTER, console_of_low),
    "MME": End(OUTER, lines("mme 1")),
    "DRL": End(ANY, lines("drl 1")),
    "tag 1": End(ANY, tagged(0o40)),
    "tag 3": End(ANY, tagged(0o47)),
    "no tag": End(ANY, tagged(0o42)),
    "lockup": End(ANY, lockup),
    "no instruction": End(ANY, no_instruction),
    "divide check": End(ANY, lines("div 0,dl")),
    "overflow": End(ANY, lines("ldi 0,dl", "lda 131072,du", "sba 1,dl", "lda 131072,du", "neg")),
    "read": End(OUTER, by_pair("lda", "low_")),
    "write": End(OUTER, by_pair("sta", "view_")),
    "no write": End(ANY, by_pair("sta", "main")),
    "transfer": End(INNER, by_pair("tra", "out_")),
    "call of data": End(ANY, by_pair("call6", "data_")),
    "no entry": End(OUTER, by_pair("call6", "con_", 100)),
    "call bracket": End(UPPER, by_pair("call6", "near_")),
    "outward call": End(INNER, by_pair("call6", "out_")),
    "raised call": End(INNER, by_pair("call6", "wide_", 0, 1)),
    "past a bound": End(ANY, lines("lda data_$+200")),
    "page after LDBR": End(OUTER, loaded("epp3 pr7|15360", "lda pr3|0")),
    "link after LDBR": End(OUTER, loaded("lda none_$x")),
    "limit": End(ANY, lines("tra *")),
}
