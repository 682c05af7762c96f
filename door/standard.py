"""The three standard files."""

import os
import stat

from door import signals
from door.failure import Failure, Misuse, failed

INPUT, OUTPUT, ERROR = 0, 1, 2
NAMES = {INPUT: "standard input", OUTPUT: "standard output", ERROR: "standard error"}
closed = set()


def note_closed():
    """Notes which are closed, and takes their numbers, so that no file that is opened later gets one of them."""
    for number in (INPUT, OUTPUT, ERROR):
        try:
            os.fstat(number)
        except OSError:
            closed.add(number)
            os.set_inheritable(os.open(os.devnull, os.O_RDWR), True)


def opened(number):
    """A folder as standard input was closed before Python started, which does not start with one."""
    if number in closed:
        raise Failure(f"{NAMES[number]} is closed" + (", or a folder" if number == INPUT else ""))
    return number


def write_all(number, data):
    """All of the bytes. A reader that has gone is not told of: nobody is there to read it."""
    data = memoryview(data)
    try:
        with signals.taken():
            while data:
                data = data[os.write(number, data):]
    except BrokenPipeError:
        raise Failure("") from None
    except OSError as error:
        raise failed(f"{NAMES[number]} cannot be written", error) from None


def refuse_same(given, made):
    """A regular file that is read and written at once would never end, or be lost."""
    first, second = os.fstat(given), os.fstat(made)
    if stat.S_ISREG(first.st_mode) and os.path.samestat(first, second):
        raise Misuse("IN and OUT are one file")
