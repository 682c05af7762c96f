"""How far long work has come, on a terminal and only there."""

import os
import time

from door import standard

PATIENCE, EVERY = 2.0, 0.5
MEGABYTE = 1_000_000
ERASE = b"\r\x1b[K"


class Progress:
    """Of a program that reads a file. The file is opened once for both, so its place is how far the program has read."""

    def __init__(self, given, made):
        self.given = given
        self.began, self.is_shown = time.monotonic(), False
        self.is_wanted = os.isatty(standard.ERROR) and not os.isatty(made)

    @property
    def seconds(self):
        return EVERY if self.is_wanted else None

    def started(self, words):
        """The words that run the program, and the files that it holds besides."""
        return words, []

    def begin(self):
        """The program runs."""

    def tick(self):
        if self.is_wanted and time.monotonic() - self.began >= PATIENCE:
            self.show()

    def show(self):
        size = os.fstat(self.given).st_size
        try:
            place = os.lseek(self.given, 0, os.SEEK_CUR)
        except OSError:  # a pipe has no place
            self.is_wanted = False
            return
        part = f" of {size / MEGABYTE:,.1f}" if size else ""
        self.is_shown = True
        standard.write_all(standard.ERROR, ERASE + f"{place / MEGABYTE:,.1f}{part} MB read".encode())

    def erase(self):
        if self.is_shown:
            self.is_shown = False
            standard.write_all(standard.ERROR, ERASE)
