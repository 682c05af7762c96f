"""The proved programs: where they are, and one at work."""

import os
import signal

from door import signals
from door.failure import Failure, Misuse, named

HOME = os.path.dirname(os.path.dirname(os.path.realpath(__file__)))
PIECE = 1 << 16

# What a proved program ends with where its reader has gone: it ignores the signal, and ends as a shell tells of one that it ended.
READER_GONE = 128 + signal.SIGPIPE


def words_of(name):
    """The words that run a program. The repository builds what is not built; what is installed is there."""
    if os.path.exists(os.path.join(HOME, "crates.txt")):
        return built(name)
    return [os.path.join(HOME, "programs", name)]


def built(name):
    """By `./ptp program NAME`, which says on standard error what it builds and what fails."""
    ours, theirs = os.pipe()
    actions = [(os.POSIX_SPAWN_OPEN, 0, os.devnull, os.O_RDONLY, 0), (os.POSIX_SPAWN_DUP2, theirs, 1)]
    with Process([os.path.join(HOME, "ptp"), "program", name], actions, setpgroup=0) as builder:
        os.close(theirs)
        said = b""
        with signals.taken():
            while part := os.read(ours, PIECE):
                said += part
        if builder.wait():
            raise Misuse("")
    os.close(ours)
    return os.fsdecode(said).split("\n")[:-1]


class Process:
    """A process that does not outlive what it is for; one with a group of its own neither does what it starts."""

    def __init__(self, words, actions, **group):
        self.is_group = bool(group)
        try:
            self.number = os.posix_spawn(
                words[0], words, os.environ, file_actions=actions, setsigmask=[], setsigdef=[signal.SIGPIPE], **group)
        except OSError as error:
            raise Misuse(f"{named(words[0])} cannot be run: {error.strerror}") from None

    def __enter__(self):
        return self

    def __exit__(self, *_):
        if self.number:
            os.kill(-self.number if self.is_group else self.number, signal.SIGKILL)
            self.wait()

    def wait(self):
        """How it ended: 0, its status, or minus the number of a signal."""
        _, status = os.waitpid(self.number, 0)
        self.number = 0
        return os.waitstatus_to_exitcode(status)


class Program(Process):
    """A proved program at work. What it says on standard error goes to `heard`, piece by piece, while the watch waits."""

    def __init__(self, words, given, made, watch, heard, more=()):
        """`more` are files that it holds besides, as pairs of ours and its number."""
        self.name, self.watch, self.heard = os.path.basename(words[-1]), watch, heard
        self.says, theirs = os.pipe()
        super().__init__(words, [(os.POSIX_SPAWN_DUP2, ours, its) for ours, its in ((given, 0), (made, 1), (theirs, 2), *more)])
        os.close(theirs)
        self.is_silent = False
        watch.add(self.says, self.listen)

    def listen(self):
        said = os.read(self.says, PIECE)
        if said:
            self.heard(said)
        else:
            self.is_silent = True
            self.watch.drop(self.says)

    def end(self):
        """A program that did not end by itself is told of, but for one whose reader has gone."""
        status = self.wait()
        if status in (-signal.SIGPIPE, READER_GONE):
            raise Failure("")
        if status < 0:
            raise Failure(f"{self.name} was ended by {signal.Signals(-status).name}")
        if status > 0:
            raise Failure(f"{self.name} ended with {status}")
