"""Draws the program of a bare image while it follows its path.

Where the path reaches a word that nothing has looked at, an instruction is drawn: candidates are
tried by the account of a step, and one that goes on is taken, so that a program runs for some tens
of steps. Its last step is drawn among candidates that end the run, the rarest first. The account
only steers: whether the machine does the same is what the case is there to find out."""

from typing import NamedTuple

from .account import Account, Place
from .cases_draft import ROWS, Drafts, Draft
from .cases_reached import IMAGE_ENDS, end_feature, features, fetch_feature
from .cases_world import SIZE, World
from .explain import explain
from .made_images import op
from .memory import NoAccess
from .names import PLAIN
from .references import References

MOST_TRIES, FEWEST_ENDS, MOST_ENDS, MOST_STEPS = 12, 30, 120, 150
GOES_ON = 1 << 30
ENDERS = ("mme", "drl", "dis", "div", "ldbr", "sdbr", "cams", "lprp3", "lpri", "spri", "staq")
# Instructions for the ends of runs, by the last word of what is to be reached.
KINDS = {
    "fetch": ("rtcd",),
    "indirect": ("lda", "eax1", "cams"),
    "read": ("lda", "ldaq", "lpri", "asa"),
    "write": ("sta", "stx1", "staq", "spri", "sti"),
    "transfer": ("tra", "tsx1", "tsp2"),
    "call": ("call6",),
    "locate": ("absa",),
    "2": ("mme",),
    "5": ("lprp1", "lprp5"),
    "6": ("drl",),
    "13": ("ada", "sba", "aos", "neg", "adq", "ssa", "als", "lls"),
    "14": ("div",),
    "dis": ("dis",),
}
REFERENCES = ("fetch", "indirect", "read", "write", "transfer", "call", "locate")


class End(NamedTuple):
    """A candidate for the end of a run. The rarity is 0 where the end is what the world is for."""

    rarity: int
    chance: float
    draft: Draft


class Path:
    """A program that is drawn in a world. `counts` are the features of all cases so far."""

    def __init__(self, world, counts):
        self.world = world
        self.random = world.random
        self.counts = counts
        self.memory = world.memory
        self.registers = world.registers
        self.first = dict(world.memory.words)
        self.seen = set(range(world.tables))
        self.steps = 0
        self.length = self.random.randint(10, 60)

    # Following the path.

    def follow(self):
        """Draws the whole program. The words of core at its start."""
        while self.steps < MOST_STEPS:
            if self.is_free():
                self.draw()
            if not self.take():
                break
        return self.first

    def here(self):
        """Where the next instruction is in core, or None."""
        registers = self.registers
        segment = self.world.segments.get(registers.segment)
        if segment is None or segment.kind != "code" or registers.word >= segment.words:
            return None
        return segment.base + registers.word

    def is_free(self):
        at = self.here()
        return at is not None and at not in self.seen

    def take(self):
        """Takes the step that is there. True where the run goes on."""
        account, touched = self.account()
        self.counts.update(set(features(account)))
        self.seen |= touched | {spot for spot, _ in account.commits}
        self.memory.commit(account.commits)
        self.registers = account.after
        self.steps += 1
        return account.outcome.kind == "next"

    def account(self):
        self.memory.touched = set()
        account = explain(self.registers, self.memory)
        return account, self.memory.touched

    # Candidates.

    def draw(self):
        """Lays an instruction where the path is: one that goes on, or at last one that ends it."""
        if self.steps >= self.length:
            self.lay(self.rarest_end())
            return
        for _ in range(MOST_TRIES):
            draft = Drafts(self, self.random.random() < 0.05).draft(self.name())
            if self.goes_on(draft):
                self.lay(draft)
                return
        self.lay(Draft(op("nop", 0, 3), {}))

    def lay(self, draft):
        words = {self.here(): draft.word, **draft.laid}
        self.memory.words.update(words)
        self.first.update(words)

    def tried(self, draft):
        """The account of a candidate, and the refusal that the fetch after it meets or None."""
        words = {self.here(): draft.word, **draft.laid}
        before = {at: self.memory.words.get(at, 0) for at in words}
        self.memory.words.update(words)
        account, _ = self.account()
        refusal = self.fetch_refusal(account.after) if account.outcome.kind == "next" else None
        self.memory.words.update(before)
        return account, refusal

    def fetch_refusal(self, registers):
        place = Place(registers.ring, registers.segment, registers.word)
        account = Account(at=place)
        try:
            References(registers, self.memory, account, PLAIN).ask("fetch", place)
        except NoAccess as refusal:
            return refusal
        return None

    def goes_on(self, draft):
        account, refusal = self.tried(draft)
        if account.outcome.kind != "next" or refusal:
            return False
        after = account.after
        segment = self.world.segments.get(after.segment)
        if segment is None or segment.kind != "code" or after.word >= segment.words // 2:
            return False
        return segment.base + after.word not in self.seen or self.random.random() < 0.1

    def rarest_end(self):
        """The candidate that ends as the world is made for, or else the one whose end is the
        rarest."""
        found = [self.end() for _ in range(FEWEST_ENDS)]
        while min(found).rarity and self.world.goal and len(found) < MOST_ENDS:
            found.append(self.end())
        return min(found).draft

    def end(self):
        """A candidate with how rare the end of the run is that it makes."""
        draft = Drafts(self, True).draft(self.ender())
        account, refusal = self.tried(draft)
        found = []
        if account.outcome.kind != "next":
            found = [end_feature(account), *(text for text in features(account) if "tag" in text)]
        elif refusal:
            found = [fetch_feature(refusal)]
        rarity = min((1 + self.counts[text] for text in found), default=GOES_ON)
        if self.world.goal in found:
            rarity = 0
        return End(rarity, self.random.random(), draft)

    # Names of instructions.

    def name(self):
        """An instruction, rare ones first. The first ones load registers."""
        if self.steps < 6 and self.random.random() < 0.6:
            return self.random.choice(("epp", "ldx")) + str(self.random.randrange(8))
        rows = self.random.sample(ROWS, 6)
        return min(rows, key=lambda row: self.counts[f"instruction {row.name}"]).name

    def ender(self):
        """An instruction for the end, by what is not yet reached."""
        kind = self.world.goal.rpartition(" ")[2]
        if self.random.random() < 0.6:
            return self.random.choice(KINDS.get(kind) or KINDS[self.random.choice(REFERENCES)])
        return self.random.choice((*ENDERS, self.name()))


def drawn(random, counts):
    """The text of an image with a drawn program, how many steps it is to be followed, and the size
    of core where segment 7 lies over it at the end. `counts` are the features of the images before
    it, and then of this one too."""
    missing = [goal for goal in IMAGE_ENDS if not counts[goal]]
    world = World(random, random.choice(missing) if missing else "")
    path = Path(world, counts)
    first = path.follow()
    size = SIZE if world.is_viewed(path.registers.dbr) else None
    return world.text(first), path.steps + 1, size
