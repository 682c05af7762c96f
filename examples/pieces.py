"""Judges a program that lists, copies or mends recordings, by the model, on recordings of several windows and on input that comes in pieces.

    python3 -m examples.pieces [--copy | --mend] COMMAND ..

COMMAND reads a recording from standard input and writes its listing; with --copy and --mend its copy, or what is mended of it, and the report. It is given recordings that are longer than its
window, with records across the edge of what is read at once: as a file, and through a pipe in pieces of 1, 2, 3, 100
and 65,535 bytes. Each piece is written once the program has taken the one before and waits for more. Each difference is
printed, and last `COUNT compared, N differ`.
"""

import fcntl
import os
import struct
import subprocess
import sys
import tempfile
import termios
import time

from examples.cuts import first_refusal
from examples.judge import judged
from examples.make import container_line, record
from model import listing, mending
from model.recording import MOST_BODY, NOTE, RECORD_HEADER, copied

WINDOW = 65536
LONGEST = RECORD_HEADER + MOST_BODY
# How much of a record has come where a read ends: nothing, a part of its length, of its kind, of its body's header, all but a byte.
PARTS = [0, 1, 3, 4, 5, 6, 7, 17, 18, LONGEST - 1]
SIZES = [1, 2, 3, 100, 65535]
PAUSE = 0.0002
PATIENCE = 60
SHOWN = 60


def notes(length):
    """Notes of so many bytes in all: none, or at least a header."""
    made = []
    while length > 0:
        size = length if length <= LONGEST else min(LONGEST, length - RECORD_HEADER)
        made.append(record(NOTE, bytes(size - RECORD_HEADER)))
        length -= size
    return b"".join(made)


def across_edges():
    """A longest record across the edge of each read, by every part; a read fills the window after what is left of a record."""
    data, edge = b"", WINDOW
    for part in PARTS:
        data += notes(edge - part - len(data))
        data += container_line("in", "Data", "GetObject", "7", f"zeros:{MOST_BODY - 12}").data
        edge += WINDOW - part
    return data


def short_records(count):
    """Records whose lines are longer than they are, so that the output fills before the window is listed."""
    made = [record(NOTE, b""), container_line("out", "Command", "GetNumObjects", "4294967295").data,
            container_line("in", "Response", "StoreNotAvailable", "9").data, record(NOTE, b"frame")]
    return b"".join(made[number % len(made)] for number in range(count))


def recordings():
    """Whole; then refused in a later window, and cut."""
    for name, data in (("across edges", across_edges()), ("short records", short_records(12000))):
        yield name, data
        yield f"{name}, then no kind", data + record(9, b"")
        yield f"{name}, cut", data[:-1]


def cut_by(data, size):
    return [data[at:at + size] for at in range(0, len(data), size)]


def near_edge(data, size, before, after):
    """The bytes around the first edge in pieces of a size, all else at once."""
    start, end = WINDOW - before, WINDOW + after
    return [data[:start], *cut_by(data[start:end], size), data[end:]]


def in_pieces():
    """Small pieces: a short recording from end to end, and a long one around the edge of the window."""
    short, long = short_records(40), across_edges()
    for size in SIZES:
        yield f"short records by {size}", short, cut_by(short, size)
        yield f"across edges, by {size} at the first", long, near_edge(long, size, 64, 64)
    yield "short records by 100, several windows", short_records(8000), cut_by(short_records(8000), 100)
    yield "across edges by 65535", long, cut_by(long, 65535)
    yield "across edges by 65535, cut", long[:-1], cut_by(long[:-1], 65535)


def waits_for_more(pipe, program):
    """Waits until the program has taken all that was written, or has ended."""
    late = time.monotonic() + PATIENCE
    while program.poll() is None and time.monotonic() < late:
        if struct.unpack("i", fcntl.ioctl(pipe, termios.FIONREAD, bytes(4)))[0] == 0:
            time.sleep(PAUSE)
            return
        time.sleep(PAUSE / 4)


def run_in_pieces(command, pieces):
    with tempfile.TemporaryFile() as out, tempfile.TemporaryFile() as told:
        program = subprocess.Popen(command, stdin=subprocess.PIPE, stdout=out, stderr=told, bufsize=0)
        pipe = program.stdin.fileno()
        try:
            for piece in pieces:
                while piece:
                    piece = piece[os.write(pipe, piece):]
                waits_for_more(pipe, program)
        except BrokenPipeError:
            pass
        program.stdin.close()
        return ended(program.wait(timeout=PATIENCE), out, told)


def run_on_file(command, data):
    with tempfile.TemporaryFile() as file, tempfile.TemporaryFile() as out, tempfile.TemporaryFile() as told:
        file.write(data)
        file.seek(0)
        program = subprocess.run(command, stdin=file, stdout=out, stderr=told, timeout=PATIENCE)
        return ended(program.returncode, out, told)


def ended(status, out, told):
    out.seek(0)
    told.seek(0)
    return status, out.read().decode("latin-1"), told.read().decode("latin-1")


def listing_due(data):
    """Status, output and what is said."""
    return 0, listing.listing(data), ""


def copying_due(data):
    """What is refused has been copied up to the record that is refused."""
    line = first_refusal(data)
    made = copied(data[:int(line.split(" ")[0])])
    is_whole = len(data) == int(line.split(" ")[0])
    return 0, made.data.decode("latin-1"), f"left out {made.records} records {made.left} bytes\n" if is_whole else line


def mending_due(data):
    mended = mending.mend(data)
    return 0, mended.data.decode("latin-1"), mending.report(mended)


def answers(command, due):
    """Each case's name, the answer and what the model says."""
    for name, data in recordings():
        yield name, run_on_file(command, data), due(data)
    for name, data, pieces in in_pieces():
        yield name, run_in_pieces(command, pieces), due(data)


def differences(command, due):
    for name, answer, expected in answers(command, due):
        status, text, told = answer
        yield None if answer == expected else (
            f"{name}, status {status}, {len(text)} bytes for {len(expected[1])}, ends {text[-SHOWN:]!r}, says {told[:SHOWN]!r}")


def main():
    words = sys.argv[1:]
    due = {"--copy": copying_due, "--mend": mending_due}.get(words[0] if words else "", listing_due)
    command = words if due is listing_due else words[1:]
    if not command:
        sys.exit(__doc__)
    return judged(differences(command, due))


if __name__ == "__main__":
    sys.exit(main())
