"""What OUT owes, for every command that writes a file.

A regular file, or one that is not there yet: all is written to a new file beside it, synced, and moved over it; where anything fails OUT is
as it was and nothing is left beside it. What is no regular file, a device or a FIFO, is written to as it is and never replaced; so is a
file that is open already (/dev/stdout, /dev/fd/3).
"""

import contextlib
import errno
import os
import stat

from door import signals, standard
from door.failure import Failure, Misuse, failed, named

TRIES = 100
# These say that the file system or the kind of file knows no syncing, not that it failed.
UNSYNCED = (errno.EINVAL, errno.ENOTSUP, errno.EROFS)


def sync(file, path):
    try:
        os.fsync(file)
    except OSError as error:
        if error.errno not in UNSYNCED:
            raise failed(f"{named(path)} cannot be written", error) from None


def open_number(path):
    """The number of an open file of this process that the name stands for, as /dev/stdout does; or None."""
    own = os.path.realpath("/proc/self/fd")
    for _ in range(40):  # as many links as the system follows
        folder, name = os.path.split(path)
        if os.path.realpath(folder) == own and name.isdigit():
            return int(name)
        if not os.path.islink(path):
            return None
        path = os.path.join(folder, os.readlink(path))
    return None


def state_of(path):
    """What stands at the place, links followed; None where nothing does."""
    try:
        return os.stat(path)
    except (FileNotFoundError, NotADirectoryError):
        if os.path.islink(path):
            raise Failure(f"{named(path)} is a link to a file that is not there") from None
        return None
    except OSError as error:
        raise failed(f"{named(path)} cannot be written", error) from None


class AsItIs:
    """A device, a FIFO, or an open file: what is written goes there at once."""

    def __init__(self, path, file):
        self.path, self.file = path, file

    def __enter__(self):
        return self

    def __exit__(self, *_):
        os.close(self.file)

    def settle(self):
        sync(self.file, self.path)

    def move(self):
        """It is there already."""


class Beside:
    """A new file in OUT's folder, which takes OUT's place when it is whole."""

    def __init__(self, path, before):
        self.path, self.before = path, before
        folder, self.name = os.path.split(os.path.realpath(path))
        if before:
            self.refuse_protected()
        try:
            self.folder = os.open(folder, os.O_RDONLY | os.O_DIRECTORY)
        except (FileNotFoundError, NotADirectoryError):
            raise Misuse(f"there is no folder {named(folder)}") from None
        except OSError as error:
            raise failed(f"{named(folder)} cannot be written", error) from None

    def refuse_protected(self):
        """Replacing takes no right to write the file itself: it is asked for all the same."""
        if not self.before.st_mode & 0o222 or not os.access(self.path, os.W_OK, effective_ids=True):
            raise Failure(f"{named(self.path)} may not be written: it is read-only")

    def __enter__(self):
        self.file = self.made()
        return self

    def made(self):
        """A file that was not there before. Nobody else reads it before it has OUT's mode."""
        for _ in range(TRIES):
            self.part = f".ptp-{os.urandom(8).hex()}"
            try:
                return os.open(self.part, os.O_WRONLY | os.O_CREAT | os.O_EXCL, 0o600 if self.before else 0o666, dir_fd=self.folder)
            except FileExistsError:
                continue
            except OSError as error:
                raise failed(f"{named(self.path)} cannot be written beside", error) from None
        raise Failure(f"no new name could be found beside {named(self.path)}")

    def __exit__(self, *_):
        if self.part:
            with contextlib.suppress(FileNotFoundError):
                os.unlink(self.part, dir_fd=self.folder)
        os.close(self.file)
        os.close(self.folder)

    def write(self, data):
        """For what this process makes itself; a program writes to the file by its number."""
        try:
            while data:
                data = data[os.write(self.file, data):]
        except OSError as error:
            raise failed(f"{named(self.path)} cannot be written", error) from None

    def settle(self):
        """All bytes on the disk, with OUT's mode, and its owner where that can be."""
        try:
            if self.before:
                self.keep_owner()
                os.fchmod(self.file, stat.S_IMODE(self.before.st_mode))
        except OSError as error:
            raise failed(f"{named(self.path)} cannot be written", error) from None
        sync(self.file, self.path)

    def move(self):
        """The new file in OUT's place."""
        self.refuse_changed()
        try:
            os.rename(self.part, self.name, src_dir_fd=self.folder, dst_dir_fd=self.folder)
        except OSError as error:
            raise failed(f"{named(self.path)} cannot be written", error) from None
        self.part = None
        sync(self.folder, self.path)

    def keep_owner(self):
        for owner, group in ((self.before.st_uid, self.before.st_gid), (-1, self.before.st_gid)):
            try:
                return os.fchown(self.file, owner, group)
            except PermissionError:
                continue

    def refuse_changed(self):
        """What somebody else wrote there in the meantime is not lost."""
        def seen(state):
            return state and (state.st_dev, state.st_ino, state.st_size, state.st_mtime_ns)

        if seen(state_of(self.path)) != seen(self.before):
            raise Failure(f"{named(self.path)} was changed by another program in the meantime, and stays as it is")


def opened(path):
    """OUT by its name."""
    if not path:
        raise Misuse("there is no file without a name")
    number = open_number(path)
    if number is not None:
        return as_open(path, number)
    state = state_of(path)
    if state is None or stat.S_ISREG(state.st_mode):
        return Beside(path, state)
    if stat.S_ISDIR(state.st_mode):
        raise Misuse(f"{named(path)} is a folder")
    try:
        with signals.taken():  # a FIFO waits for its reader
            return AsItIs(path, os.open(path, os.O_WRONLY | os.O_NOCTTY))
    except OSError as error:
        raise failed(f"{named(path)} cannot be written", error) from None


def as_open(path, number):
    """A file that is open already, by its number: what stands in it stays, and what is written goes behind."""
    if number in standard.closed:
        raise Failure(f"{named(path)} is closed")
    try:
        return AsItIs(path, os.dup(number))
    except OSError as error:
        raise failed(f"{named(path)} cannot be written", error) from None


def standard_output():
    return as_open("standard output", standard.OUTPUT)


def refuse_same(given, path):
    """IN and OUT may not be one file, by whatever names."""
    try:
        state = os.stat(path)
    except OSError:
        return
    if os.path.samestat(os.fstat(given), state) and not stat.S_ISCHR(state.st_mode):
        raise Misuse("IN and OUT are one file")
