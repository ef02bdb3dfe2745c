"""The machine: `m36 debug` through a pipe.

    with Machine(program, folder) as machine:            # the folder boots
    with Machine(program, folder, "least") as machine:   # a bare image of the folder
        answers = machine.ask("step", "regs", "where")

Each line is written with a line `~` after it, whose answer `? ~` ends its own. A session takes at
most 1 MiB of input: before that a new one is begun and taken to the same step, which the caller
does not see. A machine whose caller dies ends, since its input ends; an interruption from the
keyboard reaches the caller alone."""

import os
import subprocess
import tempfile

from .disassemble import row_of

MOST_INPUT = 1_000_000
MOST_AT_ONCE = 32_000
MOST_STEPS = 1_000_000
STEPS_OF_GO = 100_001
END = b"? ~\n"
STEP_LINES = "0123456789"
UNSURE = ("Absa", "Ldbr")


class Refusal(Exception):
    """The program ended, with this status and these lines on standard error."""

    def __init__(self, status, text):
        super().__init__(text.strip() or f"the program ended with status {status}")
        self.status = status
        self.text = text


class Session:
    """One process of `m36 debug`."""

    def __init__(self, program, folder, image):
        words = [str(program), "debug"] + ([str(image)] if image else [])
        self.errors = tempfile.TemporaryFile()
        self.process = subprocess.Popen(
            words,
            cwd=folder,
            stdin=subprocess.PIPE,
            stdout=subprocess.PIPE,
            stderr=self.errors,
            bufsize=0,
            start_new_session=True,
        )
        self.written = 0
        self.rest = bytearray()

    def ask(self, lines):
        """The answers to the lines, each a list of lines."""
        text = "".join(line + "\n~\n" for line in lines).encode()
        self.written += len(text)
        try:
            self.process.stdin.write(text)
        except BrokenPipeError:
            raise self.refusal() from None
        return [self.answer() for _ in lines]

    def answer(self):
        """The next answer, without the line that ends it."""
        scanned = 0
        while (found := end_of_answer(self.rest, scanned)) < 0:
            scanned = max(0, len(self.rest) - len(END))
            piece = os.read(self.process.stdout.fileno(), 1 << 16)
            if not piece:
                raise self.refusal()
            self.rest += piece
        text = self.rest[:found].decode("ascii")
        del self.rest[: found + len(END)]
        return text.splitlines()

    def refusal(self):
        status = self.process.wait()
        self.errors.seek(0)
        return Refusal(status, self.errors.read().decode("utf-8", "replace"))

    def close(self):
        for pipe in (self.process.stdin, self.process.stdout):
            try:
                pipe.close()
            except OSError:
                pass
        self.process.wait()
        self.errors.close()


def end_of_answer(text, start):
    """Where the line that ends an answer begins, looked for from a place on, or -1."""
    if start == 0 and text.startswith(END):
        return 0
    found = text.find(b"\n" + END, start)
    return found + 1 if found >= 0 else -1


class Machine:
    """A machine that steps, and goes back.

    `taken` is how many steps the run has taken, or None after `go`. `sure` is false once the run
    has executed ABSA or LDBR over a folder: what it then does depends on frames, so that going back
    is not sure to reach the same place."""

    def __init__(self, program, folder, image=None, most_input=MOST_INPUT):
        self.program = os.path.abspath(program)
        self.folder = folder
        self.image = image
        self.most_input = most_input
        self.session = None
        self.breaks = []
        self.taken = 0
        self.sure = True
        self.begin()

    def __enter__(self):
        return self

    def __exit__(self, *_):
        self.close()

    def close(self):
        if self.session is not None:
            self.session.close()
            self.session = None

    def begin(self):
        """Begins a new session, and waits for it, so that a refusal is raised here."""
        self.close()
        self.session = Session(self.program, self.folder, self.image)
        self.taken = 0
        try:
            self.session.ask([""])
        except Refusal:
            self.close()
            raise

    def ask(self, *lines):
        """The answer to each line, a list of lines."""
        answers = []
        for group in groups(lines):
            if self.session.written + size_of(group) > self.most_input:
                self.renew()
            found = self.session.ask(group)
            for line, answer in zip(group, found):
                self.follow(line, answer)
            answers += found
        return answers

    def follow(self, line, answer):
        """Keeps count of the steps."""
        if line.startswith("step"):
            for text in answer:
                if text[0] in STEP_LINES:
                    self.see(text)
        elif line == "go":
            self.taken = None
            if answer and answer[0].startswith("end "):
                self.taken = int(answer[0].rpartition(" ")[2])
        elif line.startswith("back") and answer and not answer[0].startswith("?"):
            if self.taken is not None:
                self.taken -= int(line[5:] or 1)

    def see(self, trace):
        fields = trace.split(" ", 8)
        self.taken = int(fields[0])
        if self.image is None and fields[3] != "-" and fields[8] == "next":
            row = row_of(int(fields[3], 8))
            if row is not None and row.effect in UNSURE:
                self.sure = False

    def count(self):
        """How many steps the run has taken. After `go` a step shows it, and is taken back."""
        if self.taken is None:
            self.session_steps(1)
            self.go_to(self.taken - 1)
        return self.taken

    def renew(self):
        """A new session at the same step."""
        self.go_to(self.count())

    def go_to(self, taken, quick=False):
        """A new session that has taken `taken` steps. A quick one does not look at each step, so
        that `sure` stays as it is."""
        self.begin()
        while quick and taken - self.taken > STEPS_OF_GO:
            self.session.ask(["go"])
            self.session_steps(1)
        while self.taken < taken:
            before = self.taken
            self.session_steps(min(taken - before, MOST_STEPS))
            if self.taken == before:
                break
        if self.breaks:
            self.session.ask([break_line(place) for place in self.breaks])

    def session_steps(self, count):
        (answer,) = self.session.ask([f"step {count}"])
        self.follow("step", answer)

    def add_break(self, segment, word):
        """Adds a break. False where there are sixteen others already."""
        (answer,) = self.ask(break_line((segment, word)))
        if answer and answer[0].startswith("?"):
            return False
        if (segment, word) not in self.breaks:
            self.breaks.append((segment, word))
        return True

    def drop_break(self, segment, word):
        """Drops a break: a new session without it is taken to the same step."""
        self.breaks.remove((segment, word))
        self.renew()

    def back(self, count=1):
        """Goes back `count` steps, and says where the machine is as `where` does. None if fewer
        steps have been taken."""
        taken = self.count()
        if count > taken:
            return None
        if self.image is not None:
            (answer,) = self.ask("back" if count == 1 else f"back {count}")
            if answer and not answer[0].startswith("?"):
                return answer[0]
        self.go_to(taken - count)
        return self.ask("where")[0][0]


def break_line(place):
    return f"break {place[0]:05o} {place[1]:06o}"


def seg_line(segment, word):
    return f"seg {segment:05o} {word:06o}"


def word_in(answer):
    """The word that an answer to `seg` has, or None where it is absent."""
    text = answer[0].rpartition(" ")[2]
    return None if text == "absent" else int(text, 8)


def size_of(lines):
    return sum(len(line) + 3 for line in lines)


def groups(lines):
    """The lines in groups that fit into a pipe."""
    group, size = [], 0
    for line in lines:
        if group and size + len(line) + 3 > MOST_AT_ONCE:
            yield group
            group, size = [], 0
        group.append(line)
        size += len(line) + 3
    if group:
        yield group
