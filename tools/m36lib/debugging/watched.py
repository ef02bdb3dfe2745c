"""What can be watched: a word of memory, or a register."""

from ..machine import seg_line

REGISTER_LINES = 10
WATCHED = "a, q, x0 to x7, pr0 to pr7 and ind"
FIELDS = {"a": (0, 2, 14), "q": (0, 17, 29), "ind": (0, 34, 40)}


class Watched:
    """`line` is asked of the program after each step, and has `answers` lines of answer. The value
    is a text: the part from `start` to `stop` of the answer's line `index`."""

    def __init__(self, text, line, answers, index, start, stop):
        self.text = text
        self.line = line
        self.answers = answers
        self.index = index
        self.start = start
        self.stop = stop

    def value(self, answer):
        """The value that an answer has."""
        return answer[self.index][self.start : self.stop]


class WatchedWord(Watched):
    """A word of a segment."""

    def __init__(self, segment, word, text):
        super().__init__(text, seg_line(segment, word), 1, 0, 13, None)
        self.segment = segment
        self.word = word


class WatchedRegister(Watched):
    """`a`, `q`, `x0` to `x7`, `pr0` to `pr7` or `ind`."""

    def __init__(self, name):
        number = int(name[-1]) if name[-1].isdecimal() else 0
        if name.startswith("pr"):
            field = (2 + number, 4, None)
        elif name.startswith("x"):
            field = (1, 2 + 7 * number, 8 + 7 * number)
        else:
            field = FIELDS[name]
        super().__init__(name, "regs", REGISTER_LINES, *field)


class WatchedSteps:
    """The steps of an answer of `Run.watch`: `lines` are those that `step` writes, and `values` has
    for each step what is watched after it."""

    def __init__(self, answer, watched):
        self.watched = watched
        self.period = 1 + sum(what.answers for what in watched)
        if any(line.startswith(("link ", "console ", "end ")) for line in answer):
            answer = list(self.aside(answer))
        else:
            self.lines = answer[:: self.period]
        self.values = list(zip(*self.columns(answer)))

    def aside(self, answer):
        """The answer as if `step` wrote one line each time; those that it writes are kept."""
        self.lines, at = [], 0
        while at < len(answer):
            is_step = answer[at][0] <= "9"
            first = answer[at]
            while at < len(answer) and is_of_step(answer[at]):
                self.lines.append(answer[at])
                at += 1
            rest = answer[at : at + self.period - 1]
            at += self.period - 1
            if is_step:
                yield first
                yield from rest

    def columns(self, answer):
        """The values of each thing that is watched."""
        at = 1
        for what in self.watched:
            lines = answer[at + what.index :: self.period]
            yield [line[what.start : what.stop] for line in lines]
            at += what.answers

    def changes(self, before):
        """The indexes of steps that change what is watched, from these values on."""
        found = []
        for index, values in enumerate(self.values):
            if values != before:
                found.append(index)
                before = values
        return found


def is_of_step(line):
    """The line is one that `step` writes, and no answer to `seg` or `regs`."""
    return line.startswith(("link ", "console ", "end ")) or (line[0] <= "9" and line[5] != "|")


def is_register(name):
    return name in FIELDS or (
        name[:-1] in ("x", "pr") and name[-1:] in "01234567" and len(name) in (2, 3)
    )
