"""Memory as a step sees it: descriptors, places of words, and what they hold.

`CoreMemory` is the core of a bare image; `FlatMemory` the memory of a booted folder, where pages
come and go unseen. Both give the same four things for a step: the descriptor of a segment, the spot
of a word, the content of a spot, and marks (docs/MANUAL.md, sections 5 and 14). A refusal is
raised as `NoAccess`."""

from .fields import CORE_ADDRESSES, PAGE, marked, ptw_of, sdw_of

RULE = "5"
STORE = 1
FIRST_DIRECTED = 16
ACCESS = 20
OUT_OF_BOUNDS = 15
BLOCK = 16
SEGMENTS = 1 << 15


class NoAccess(Exception):
    """A reference that is refused: the number of the fault, that of the access violation or None,
    the reason, and the section that has the rule."""

    def __init__(self, number, violation, why, rule=RULE):
        super().__init__(why)
        self.number = number
        self.violation = violation
        self.why = why
        self.rule = rule


class NotKnown(Exception):
    """What the account would have to look at is not to be seen from outside the machine."""


def directed(code, what):
    why = f"{what} has F off and names directed fault {code}"
    return NoAccess(FIRST_DIRECTED + code, None, why)


def past_core(what):
    return NoAccess(STORE, None, f"{what} is past the end of core")


def in_bounds(dbr, segment):
    """The descriptor segment has room for the descriptor of a segment."""
    return 2 * segment < BLOCK * (dbr.bound + 1) and segment < SEGMENTS


def check_bounds(dbr, segment):
    if not in_bounds(dbr, segment):
        why = f"segment {segment:05o} is past the end of the descriptor segment"
        raise NoAccess(ACCESS, OUT_OF_BOUNDS, why)


def check_bound(sdw, word):
    if word // BLOCK > sdw.bound:
        last = sdw.bound * BLOCK + BLOCK - 1
        raise NoAccess(
            ACCESS, OUT_OF_BOUNDS, f"word {word:o} is past the bound, and the last word is {last:o}"
        )


class CoreMemory:
    """The words of core by their addresses. `words` is kept up to date by `commit`.

    During a step the marks of its references are kept apart until `commit`."""

    booted = serves = False

    def __init__(self, size, words):
        self.size = size
        self.words = words
        self.marks = {}

    def begin(self):
        self.marks = {}

    def core(self, address):
        """A word of core, or None past its end."""
        if address >= self.size:
            return None
        mark = self.marks.get(address)
        return mark if mark is not None else self.words.get(address, 0)

    def frame(self, table_address, what):
        """Where the frame begins that a page table word names."""
        word = self.core(table_address % CORE_ADDRESSES)
        if word is None:
            raise past_core(f"the page table word of {what}")
        ptw = ptw_of(word)
        if not ptw.present:
            raise directed(ptw.fault, f"the page table word of {what}")
        return ptw.address // 16 * PAGE

    def descriptor_address(self, dbr, segment):
        if dbr.unpaged:
            return (dbr.address + 2 * segment) % CORE_ADDRESSES
        page, offset = divmod(2 * segment, PAGE)
        frame = self.frame(dbr.address + page, f"page {page} of the descriptor segment")
        return (frame + offset) % CORE_ADDRESSES

    def descriptor(self, dbr, segment):
        check_bounds(dbr, segment)
        address = self.descriptor_address(dbr, segment)
        even, odd = self.core(address), self.core((address + 1) % CORE_ADDRESSES)
        if even is None or odd is None:
            raise past_core("its descriptor")
        sdw = sdw_of(even, odd)
        if not sdw.present:
            raise directed(sdw.fault, "its descriptor")
        return sdw

    def spot(self, sdw, segment, word):
        if sdw.unpaged:
            address = (sdw.address + word) % CORE_ADDRESSES
        else:
            page, offset = divmod(word, PAGE)
            frame = self.frame(sdw.address + page, f"its page {page}")
            address = (frame + offset) % CORE_ADDRESSES
        if address >= self.size:
            raise past_core(f"its place, core word {address:08o},")
        return address

    def place_text(self, spot):
        return f"At core word {spot:08o}; no right is needed"

    def content(self, spot, segment, word):
        return self.core(spot)

    def mark(self, dbr, sdw, segment, word, modified):
        """Sets the marks of a reference that is answered."""
        if not dbr.unpaged:
            self.mark_at((dbr.address + 2 * segment // PAGE) % CORE_ADDRESSES, False)
        if not sdw.unpaged:
            self.mark_at((sdw.address + word // PAGE) % CORE_ADDRESSES, modified)

    def mark_at(self, address, modified):
        self.marks[address] = marked(self.core(address), modified)

    def commit(self, changes):
        """Makes the marks of the step and these changes: pairs of a spot and a word."""
        self.words.update(self.marks)
        self.marks = {}
        for spot, word in changes:
            self.words[spot] = word


class SeenCore(CoreMemory):
    """The core of a bare image that has run, where its tables are those of the start: the words of
    segments are asked of the machine by `ask(segment, word)`."""

    def __init__(self, size, words, ask):
        super().__init__(size, words)
        self.ask = ask

    def content(self, spot, segment, word):
        found = self.ask(segment, word)
        return super().content(spot, segment, word) if found is None else found


class FlatMemory:
    """The memory of a booted folder. `sdws` has the descriptors by segment number, and
    `look(segment, word)` gives words from the machine, this one among them, by their spots; None
    for one that has no place. Words are kept until they change."""

    booted = serves = True

    def __init__(self, sdws, look):
        self.sdws = sdws
        self.look = look
        self.words = {}

    def begin(self):
        pass

    def descriptor(self, dbr, segment):
        check_bounds(dbr, segment)
        sdw = self.sdws.get(segment)
        if sdw is None:
            raise directed(0, "its descriptor, as there is no such segment,")
        return sdw

    def spot(self, sdw, segment, word):
        return segment, word

    def place_text(self, spot):
        return "In the frame of its page; no right is needed"

    def content(self, spot, segment, word):
        found = self.seen(segment, word)
        if found is None:
            raise NotKnown(f"the machine shows no word at {segment:05o}|{word:06o}")
        return found

    def seen(self, segment, word):
        """A word that is kept, or else one from the machine."""
        found = self.words.get((segment, word))
        if found is None:
            looked = self.look(segment, word)
            self.words.update({spot: one for spot, one in looked.items() if one is not None})
            found = looked[segment, word]
        return found

    def mark(self, dbr, sdw, segment, word, modified):
        pass

    def commit(self, changes):
        self.words.update(changes)

    def forget(self, segments=None):
        """Drops the words that are kept, all or those of some segments."""
        if segments is None:
            self.words = {}
            return
        self.words = {spot: word for spot, word in self.words.items() if spot[0] not in segments}


class LoadedMemory(FlatMemory):
    """The memory of a booted folder after an LDBR: no page is brought in any more. It is known as
    long as the descriptor segment is that of the boot."""

    serves = False
    WORDS = 2048

    def descriptor(self, dbr, segment):
        check_bounds(dbr, segment)
        if dbr.address or not dbr.unpaged or 2 * segment + 1 >= self.WORDS:
            raise NotKnown("after LDBR the descriptors are not to be seen from outside")
        return super().descriptor(dbr, segment)

    def spot(self, sdw, segment, word):
        if self.seen(segment, word) is None:
            raise directed(1, f"the page table word of its page {word // PAGE}")
        return segment, word
