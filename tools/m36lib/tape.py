"""A machine that is recorded, and one that answers from the recording.

The account can so be run again and again over the same steps without the program."""

from .machine import Machine, Refusal


class Recording:
    """A machine whose answers are kept: by the count of `step` lines before, and the line."""

    def __init__(self, program, folder, image):
        self.machine = Machine(program, folder, image)
        self.steps = 0
        self.answers = {}

    def ask(self, *lines):
        found = self.machine.ask(*lines)
        for line, answer in zip(lines, found):
            self.steps += line == "step"
            self.answers[self.steps, line] = answer
        return found

    def close(self):
        self.machine.close()


class Tape:
    """Answers as a recording has them. What was not asked then is refused."""

    def __init__(self, answers):
        self.answers = answers
        self.steps = 0

    def ask(self, *lines):
        found = []
        for line in lines:
            self.steps += line == "step"
            answer = self.answers.get((self.steps, line))
            if answer is None:
                raise Refusal(0, f"the recording has no answer to {line} after {self.steps} steps")
            found.append(answer)
        return found

    def close(self):
        pass
