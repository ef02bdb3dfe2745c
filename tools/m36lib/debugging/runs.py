"""Processes of `m36 debug` at known steps of one run.

    runs = Runs(program, folder, image)
    run = runs.at(1234)                 # a process whose run has taken 1,234 steps
    lines, where = run.trace(100)       # it takes up to 100 steps more

The run is the same each time: nothing comes into it from outside. So a process can be taken to any
step from its start, and going back is a process that has taken fewer steps. Some processes are kept
at earlier steps, so that going back in a long run is not slow."""

import os

from ..machine import END, MOST_INPUT, Session

GO_STEPS = 100_000
BATCH = 30_000
TAIL = 4_096


class Run(Session):
    """A process of `m36 debug`. `step` is the number of steps that its run has taken, and `end` its
    end line once the run has ended."""

    def __init__(self, program, folder, image):
        super().__init__(program, folder, image)
        self.step = 0
        self.end = None
        self.expected = 0

    def trace(self, count):
        """Takes up to `count` steps. The lines that the program prints, and that of `where`."""
        lines, (where,) = self.ask([f"step {count}", "where"])
        self.see_end(lines, self.step + count)
        return lines, where

    def see_end(self, lines, step):
        """Sets the number of steps, by the lines of steps that would have led to this one."""
        if lines and lines[-1].startswith("end "):
            self.end = lines[-1]
            step = int(self.end.rpartition(" ")[2])
        self.step = step

    def watch(self, count, lines):
        """Takes up to `count` steps, and has these lines answered after each. All lines that the
        program prints. The count is at most what `watched_at_once` says."""
        answer = self.ask_block(["step", *lines] * count)
        ends = [line for line in answer if line.startswith("end ")]
        self.see_end(ends, self.step + count)
        return answer

    def ask_block(self, lines):
        """The answers to the lines in one list."""
        (answer,) = self.ask(["\n".join(lines)])
        return answer

    def position(self):
        """The step at which it is, or to which it is on its way."""
        return self.step + self.expected * GO_STEPS

    def close(self):
        self.process.kill()
        super().close()

    def send(self, text):
        """Writes lines whose answers are read later."""
        self.written += len(text)
        try:
            self.process.stdin.write(text.encode("ascii"))
        except BrokenPipeError:
            raise self.refusal() from None

    def begin_forward(self, step):
        """Starts to take `go` steps up to a step at most this one, without waiting for them."""
        count = (step - self.position()) // GO_STEPS
        if count:
            self.send("go\n~\n" * count)
            self.expected += count

    def finish_forward(self):
        """Reads the answers to the `go` lines that were written."""
        while self.expected:
            self.expected -= 1
            answer = self.answer()
            self.see_end(answer, self.step + GO_STEPS)

    def forward_to(self, step):
        """Takes the run to this step, or to its end if that is before."""
        self.begin_forward(step)
        self.finish_forward()
        if self.step < step and not self.end:
            self.skip(step - self.step)

    def skip(self, count):
        """Takes up to this number of steps, and drops what the program prints of them."""
        self.send(f"step {count}\n~\n")
        tail = b""
        while not (tail == END or tail.endswith(b"\n" + END)):
            piece = os.read(self.process.stdout.fileno(), 1 << 16)
            if not piece:
                raise self.refusal()
            tail = (tail + piece)[-TAIL:]
        self.see_end(tail.decode("ascii").splitlines()[:-1], self.step + count)


def watched_at_once(lines):
    """How many steps `Run.watch` may take with these lines."""
    return max(1, BATCH // (5 + sum(len(line) + 1 for line in lines)))


class Runs:
    """The processes of one run of a folder or of a bare image."""

    def __init__(self, program, folder, image=None, most_input=MOST_INPUT):
        self.program = program
        self.folder = folder
        self.image = image
        self.most_input = most_input
        self.kept = []

    def close(self):
        for run in self.kept:
            run.close()
        self.kept = []

    def begin(self):
        """A new process at step 0. Raises machine.Refusal if the program refuses the folder or the
        image."""
        run = Run(self.program, self.folder, self.image)
        try:
            run.ask([""])
        except BaseException:
            run.close()
            raise
        self.kept.append(run)
        return run

    def at(self, step):
        """A process at this step, or at the end of the run if that is before. It may be used until
        the next call of a method of this object."""
        for run in [run for run in self.kept if run.written > self.most_input]:
            self.drop(run)
        before = [run for run in self.kept if run.position() <= step]
        run = max(before, key=Run.position) if before else self.begin()
        try:
            run.forward_to(step)
        except BaseException:
            self.drop(run)
            raise
        return run

    def drop(self, run):
        self.kept.remove(run)
        run.close()

    def prepare(self, step):
        """Keeps processes for what may come next from this step on: the nearest after it, one at
        the start, and some at earlier steps, which are on their way there when this returns."""
        wanted = [step, 0]
        if step > 2 * GO_STEPS:
            wanted.append(step - GO_STEPS)
        if step > 8 * GO_STEPS:
            wanted.append(step // 2)
        useful = set()
        for target in wanted:
            useful.add(self.prepared(target))
        after = [run for run in self.kept if run.position() > step]
        useful.add(min(after, key=Run.position, default=None))
        for run in [run for run in self.kept if run not in useful]:
            self.drop(run)

    def prepared(self, step):
        """A process at most `GO_STEPS` before a step, or on its way there."""
        for run in self.kept:
            if step - GO_STEPS < run.position() <= step:
                return run
        run = self.begin()
        run.begin_forward(step)
        return run
