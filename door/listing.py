"""list [--check] [--follow] [FILE], and ask [FILE], which goes the same way"""

import os

from door import inputs, standard
from door.failure import Failure, Misuse
from door.program import PIECE, Program, words_of
from door.progress import Progress
from door.watch import Watch

# No two lines of a listing are longer.
TWO_LINES = 400


class Said:
    """What a program says on standard error, which it does only where it fails."""

    def __init__(self, progress):
        self.progress, self.is_said = progress, False

    def heard(self, said):
        self.is_said = True
        self.progress.erase()
        standard.write_all(standard.ERROR, said)


class Passing:
    """A listing on its way to standard output, looked at: whether its last line is there and no refusal stands before it."""

    def __init__(self, watch):
        self.watch, self.end, self.is_over = watch, b"", False
        self.file, self.theirs = os.pipe()
        watch.add(self.file, self.pass_on)

    def pass_on(self):
        data = os.read(self.file, PIECE)
        if data:
            standard.write_all(standard.OUTPUT, data)
            self.end = (self.end + data)[-TWO_LINES:]
        else:
            self.is_over = True
            self.watch.drop(self.file)

    def is_sound(self):
        lines = self.end.split(b"\n")
        return len(lines) > 2 and lines[-1] == b"" and lines[-2].startswith(b"records ") and b" refusal " not in lines[-3]


class Direct:
    """A listing that the program itself writes to standard output."""
    theirs, is_over = standard.OUTPUT, True

    def is_sound(self):
        return True


def listed(words, given, watch, progress, passing):
    """Status 0 where the listing is sound, as far as it is looked at."""
    said = Said(progress)
    words, more = progress.started(words)
    with Program(words, given, passing.theirs, watch, said.heard, more) as program:
        if passing.theirs != standard.OUTPUT:
            os.close(passing.theirs)
        progress.begin()
        watch.until(lambda: program.is_silent and passing.is_over, progress.tick, progress.seconds)
        program.end()
    progress.erase()
    if said.is_said:
        raise Failure("")
    return 0 if passing.is_sound() else 1


def run(words):
    options = [word for word in words if word in ("--check", "--follow")]
    file = inputs.only_file("list", [word for word in words if word not in options])
    return run_program("list", file, "--check" in options, "--follow" in options)


def run_program(name, file, is_checked=False, is_followed=False):
    if is_followed and file == "-":
        raise Misuse("--follow takes a file, and none is given")
    given, made = inputs.opened_or_standard(file), standard.opened(standard.OUTPUT)
    standard.refuse_same(given, made)
    watch = Watch()
    progress = follower(file, given, watch) if is_followed else Progress(given, made)
    words = words_of(name)
    return listed(words, progress.given, watch, progress, Passing(watch) if is_checked else Direct())


def follower(file, given, watch):
    from door.follow import Follower  # only here, so that other commands start without it
    return Follower(file, given, watch)


def ask(words):
    return run_program("ask", inputs.only_file("ask", words))
