"""The proved program `ask`, asked one question after the other."""

import os

from door import signals
from door.failure import Failure
from door.program import PIECE, Process, words_of


class Asking(Process):
    """`ask` at work: a question, its answer, and the next."""

    def __init__(self):
        given, self.questions = os.pipe()
        self.answers, made = os.pipe()
        super().__init__(words_of("ask"), [(os.POSIX_SPAWN_DUP2, given, 0), (os.POSIX_SPAWN_DUP2, made, 1)])
        os.close(given)
        os.close(made)
        self.held = b""

    def answer(self, question):
        """The words of the answer."""
        asked = memoryview(question.encode() + b"\n")
        try:
            with signals.taken():
                while asked:
                    asked = asked[os.write(self.questions, asked):]
                while b"\n" not in self.held:
                    self.held += os.read(self.answers, PIECE) or self.ended()
        except BrokenPipeError:
            self.ended()
        line, _, self.held = self.held.partition(b"\n")
        return line.decode("ascii").split(" ")

    def ended(self):
        raise Failure("ask ended inside its answer")
