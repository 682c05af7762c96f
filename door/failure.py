"""How a command fails: one sentence on standard error, and a status."""


class Failure(Exception):
    """Something could not be read, written or kept. The text is the sentence; an empty one says nothing."""
    status = 1


class Misuse(Failure):
    """There is nothing to run: a word is not known, or a file is not there."""
    status = 2


def named(path):
    """A file's name within a sentence: one that would break the line is shown with escapes."""
    return path if path.isprintable() else ascii(path)


def failed(what, error):
    """The failure of a system call, with the system's own reason."""
    return Failure(f"{what}: {error.strerror}")
