"""Waiting for several files at once."""

import select

from door import signals


class Watch:
    """Calls whoever asked for a file when it can be read, or written; and a clock's call in between."""

    def __init__(self):
        self.poll, self.calls = select.poll(), {}

    def add(self, file, call, events=select.POLLIN):
        self.calls[file] = call
        self.poll.register(file, events)

    def drop(self, file):
        if self.calls.pop(file, None):
            self.poll.unregister(file)

    def until(self, done, tick, seconds):
        """Until `done` says so. `tick` is called after each wait, which takes no longer than so many seconds; None: as long as it may."""
        while not done():
            with signals.taken():
                ready = self.poll.poll(None if seconds is None else seconds * 1000)
            for file, _ in ready:
                if file in self.calls:
                    self.calls[file]()
            tick()
