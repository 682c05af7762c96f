"""The file that a command reads."""

import os
import stat

from door import signals, standard
from door.failure import Misuse, failed, named


def opened(path):
    """The file's number. It is opened once, and everything after that is of the open file."""
    if not path:
        raise Misuse("there is no file without a name")
    try:
        with signals.taken():  # a FIFO waits for its writer
            file = os.open(path, os.O_RDONLY | os.O_NOCTTY)
    except FileNotFoundError:
        raise Misuse(f"there is no file {named(path)}") from None
    except OSError as error:
        raise Misuse(f"{named(path)} cannot be read: {error.strerror}") from None
    if stat.S_ISDIR(os.fstat(file).st_mode):
        raise Misuse(f"{named(path)} is a folder")
    return file


def opened_or_standard(path):
    return standard.opened(standard.INPUT) if path == "-" else opened(path)


def read_at_most(file, most):
    """The bytes of the file, one more than `most` where it has more."""
    parts, left = [], most + 1
    try:
        with signals.taken():
            while left and (part := os.read(file, min(left, 1 << 16))):
                parts.append(part)
                left -= len(part)
    except OSError as error:
        raise failed("the file cannot be read", error) from None
    return b"".join(parts)


def only_file(command, words):
    """The words of a command that reads one file or standard input."""
    files = []
    for word in words:
        if len(word) > 1 and word.startswith("-"):
            raise Misuse(f"{command} does not take {named(word)}")
        files.append(word)
    if len(files) > 1:
        raise Misuse(f"{command} takes one file, and {named(files[1])} is another")
    return files[0] if files else "-"
