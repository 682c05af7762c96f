"""A file that is still being written, handed to a program as it grows."""

import os
import select
import signal
import stat

from door import standard
from door.failure import Failure, Misuse, named
from door.program import PIECE

EVERY = 0.2
# So many bytes before the place are read again where the file was touched, to see that they are still the same.
MARK = 4096


# A program whose input ends writes the listing's last line. One that is not fed any more because this process was killed must not: it is
# killed with it, and holds its own input open so that it sees no end before.
KILLED_WITH_THIS = ["/usr/bin/setpriv", "--pdeathsig", "KILL"]
HELD_OPEN = 3


class Follower:
    """Stands where a progress stands: it is called at each tick of the watch. It ends with its caller and with whoever reads the listing."""
    seconds = EVERY

    def __init__(self, name, given, watch):
        if not stat.S_ISREG(os.fstat(given).st_mode):
            raise Misuse(f"--follow takes a regular file, and {named(name)} is none")
        self.name, self.file, self.watch = name, given, watch
        self.place, self.mark, self.touched, self.waiting = 0, b"", None, b""
        self.caller = None if signal.getsignal(signal.SIGHUP) is signal.SIG_IGN else os.getppid()  # nohup asks to outlive it
        self.given, self.pipe = os.pipe()
        os.set_blocking(self.pipe, False)
        self.reader = select.poll()
        self.reader.register(standard.OUTPUT, 0)

    def started(self, words):
        """The words that run the program, and the files that it holds besides."""
        if os.path.exists(KILLED_WITH_THIS[0]):
            return KILLED_WITH_THIS + words, [(self.pipe, HELD_OPEN)]
        return words, []

    def begin(self):
        """The program runs: its end of the pipe is its own, so that its going is seen here."""
        os.close(self.given)
        self.feed()

    def erase(self):
        """There is no progress to erase."""

    def tick(self):
        if self.caller and os.getppid() != self.caller:
            raise Failure("the program that started this has ended")
        if any(events & select.POLLERR for _, events in self.reader.poll(0)):
            raise Failure("")
        self.refuse_written_anew()
        self.feed()

    def refuse_written_anew(self):
        """Bytes that stood before may not go or change: what follows would be listed as if it stood behind them."""
        state = os.fstat(self.file)
        if state.st_size < self.place:
            raise Failure(f"{named(self.name)} was cut short while it was followed")
        if state.st_mtime_ns != self.touched and os.pread(self.file, len(self.mark), self.place - len(self.mark)) != self.mark:
            raise Failure(f"{named(self.name)} was written anew while it was followed")
        self.touched = state.st_mtime_ns

    def feed(self):
        """As much as has come, or as the program takes now."""
        while self.waiting or self.read_on():
            try:
                self.waiting = self.waiting[os.write(self.pipe, self.waiting):]
            except BlockingIOError:
                self.watch.add(self.pipe, self.feed, select.POLLOUT)
                return
            except BrokenPipeError:  # the program ends by itself, as at a refusal
                self.waiting = b""
                break
        self.watch.drop(self.pipe)

    def read_on(self):
        self.waiting = os.pread(self.file, PIECE, self.place)
        self.place += len(self.waiting)
        self.mark = (self.mark + self.waiting)[-MARK:]
        return self.waiting
