"""Judges a program that lists, copies or mends recordings, by the model: the examples, cut and damaged recordings, and long ones.

    python3 -m examples.cuts [--seed SEED] [--copy | --mend] COMMAND ..

COMMAND reads a recording from standard input and writes its listing. With --copy and --mend it takes two files more, a recording and
where its copy goes, or what is mended of it; its report is judged too, and that a recording whose copy is refused leaves the second file
as it was. It is given every example of this folder, a small recording cut at every byte, a thousand damaged ones, some that are longer
than any buffer, and some that are damaged around the edge of what is read at once. Each difference is printed, and last
`COUNT compared, N differ`.
"""

import argparse
import itertools
import pathlib
import random
import subprocess
import sys
import tempfile

from compare.bits import damaged
from compare.cases_recording import random_record, record, small_recording, whole
from examples.judge import judged
from model import listing, mending
from model.recording import MOST_BODY, copied, read_record
from model.refusals import Refused

FOLDER = pathlib.Path(__file__).resolve().parent
DAMAGED = 1000
LONG_BYTES = 3_000_000
SHOWN = 200
# So many bytes are read at once.
WINDOW = 65536
# In each so many bytes of a long recording one is changed.
DAMAGED_EACH = 4096
# What stands in the second file before.
BEFORE = b"as it was"


def examples():
    for path in sorted(FOLDER.glob("*.recording")):
        yield path.stem, path.read_bytes(), path.with_suffix(".listing").read_text()


def by_model(name, data):
    return name, data, listing.listing(data)


def cuts():
    """The small recording, and the one of document 01, each cut at every byte."""
    for name, data in (("small", small_recording()), ("two-records", (FOLDER / "two-records.recording").read_bytes())):
        for length in range(len(data) + 1):
            yield by_model(f"{name} cut at {length}", data[:length])


def damaged_ones(rng):
    """A few records, one to three things wrong with them."""
    for count in range(DAMAGED):
        data = b"".join(random_record(rng) for _ in range(rng.randrange(1, 9)))
        for _ in range(rng.randrange(1, 4)):
            data = damaged(rng, data)
        yield by_model(f"damaged {count}", data)


def long_record(rng):
    """Bodies of every size, the longest more often than chance would have it."""
    size = rng.choice([rng.randrange(60), rng.randrange(MOST_BODY - 12), MOST_BODY - 12])
    return record(rng.choice([1, 2]), whole(rng.choice([1, 2, 3, 4]), rng.getrandbits(16), rng.getrandbits(32), bytes(size)))


def long_recording(rng, make):
    records, length = [], 0
    while length < LONG_BYTES:
        records.append(make(rng))
        length += len(records[-1])
    return b"".join(records)


def long_ones(rng):
    """Longer than any buffer: records of all sizes, short ones only, the shortest only; whole, cut, and with a byte too many."""
    makers = {"all sizes": long_record, "short": random_record, "shortest": lambda rng: record(3, b"")}
    for name, make in makers.items():
        data = long_recording(rng, make)
        yield by_model(f"long, {name}", data)
        yield by_model(f"long, {name}, cut", data[:-3])
        yield by_model(f"long, {name}, and a byte", data + b"\x00")


def short_ones(size):
    """Notes of so many bytes in all, none or at least six."""
    return record(3, bytes(size % 6)) + record(3, b"") * (size // 6 - 1) if size else b""


def longest(rng):
    """The longest record alone and behind short ones, up to and over a window's edge; whole, cut by a byte, and followed by one."""
    for front in [0, *range(6, 601, 4), 529, 531]:
        data = short_ones(front) + record(3, rng.randbytes(MOST_BODY))
        for name, changed in (("whole", data), ("cut by a byte", data[:-1]), ("and a byte", data + b"\x00")):
            yield by_model(f"longest behind {front}, {name}", changed)


def long_damaged_ones(rng):
    """Long recordings with one byte changed in each few thousand, and one of bytes at random between records."""
    for name, make in (("all sizes", long_record), ("short", random_record)):
        data = bytearray(long_recording(rng, make)[:LONG_BYTES // 4])
        for at in range(0, len(data) - DAMAGED_EACH, DAMAGED_EACH):
            data[at + rng.randrange(DAMAGED_EACH)] ^= 1 << rng.randrange(8)
        yield by_model(f"long, {name}, damaged", bytes(data))
    yield by_model("long, between records", record(3, b"A") + rng.randbytes(3 * WINDOW) + record(3, b"B") + b"\xff" * (WINDOW + 3) + record(3, b"C"))


def edges(rng):
    """Damage up to, across and behind the edge of a window, before a short record and the longest; and a record that the damage hides."""
    for front, size in itertools.product([0, 6, *range(WINDOW - 12, WINDOW + 7, 3), WINDOW - MOST_BODY - 6], (1, 5, 6, 7, 300)):
        for name, rest in (("short", record(3, b"note")), ("longest", record(3, bytes([3]) * MOST_BODY)), ("cut", record(3, bytes(9))[:-1])):
            yield by_model(f"{size} damaged behind {front}, {name}", short_ones(front) + b"\xff" * size + rest)
    for front in range(WINDOW - 20, WINDOW + 3):
        yield by_model(f"no record behind {front}", short_ones(front) + record(9, record(3, b"note")) + record(3, b""))


def all_cases(seed):
    rng = random.Random(seed)
    yield from examples()
    yield from cuts()
    yield from damaged_ones(rng)
    yield from long_ones(rng)
    yield from longest(rng)
    yield from long_damaged_ones(rng)
    yield from edges(rng)


def first_refusal(data):
    """The line that a refused recording has in its listing."""
    at = 0
    try:
        while True:
            at = read_record(data, at).after
    except Refused as refused:
        return f"{at} refusal {refused.seen_from(at)}\n"


def copy_due(data):
    """Status, second file and report."""
    try:
        made = copied(data)
    except Refused:
        return 1, BEFORE, first_refusal(data)
    return 0, made.data, f"left out {made.records} records {made.left} bytes\n"


def mend_due(data):
    """Where nothing is kept and something dropped the second file stays, and a sentence says so."""
    mended = mending.mend(data)
    if mended.dropped and not mended.data:
        return 1, BEFORE, mending.report(mended) + "ptp: nothing could be kept, and nothing was written\n"
    return 0, mended.data, mending.report(mended)


def makes_well(command, data, due):
    """By status, second file and report; nothing else is said or left behind."""
    with tempfile.TemporaryDirectory() as folder:
        given, made = pathlib.Path(folder) / "given", pathlib.Path(folder) / "made"
        given.write_bytes(data)
        made.write_bytes(BEFORE)
        run = subprocess.run([*command, given, made], stdout=subprocess.PIPE, stderr=subprocess.PIPE)
        found = run.returncode, made.read_bytes(), run.stderr.decode("latin-1")
        return found == due and not run.stdout and len(list(pathlib.Path(folder).iterdir())) == 2


def copies_well(command, data):
    return makes_well(command, data, copy_due(data))


def mends_well(command, data):
    return makes_well(command, data, mend_due(data))


def lists_well(command, data, expected):
    run = subprocess.run(command, input=data, stdout=subprocess.PIPE)
    return run.returncode == 0 and run.stdout.decode("latin-1") == expected


def differences(given):
    for name, data, expected in all_cases(given.seed):
        if given.copy:
            well = copies_well(given.command, data)
        elif given.mend:
            well = mends_well(given.command, data)
        else:
            well = lists_well(given.command, data, expected)
        yield None if well else f"{name}, {data[:SHOWN].hex()}"


def main():
    parser = argparse.ArgumentParser(description="judge a program that lists, copies or mends recordings")
    parser.add_argument("--seed", default="1")
    kind = parser.add_mutually_exclusive_group()
    kind.add_argument("--copy", action="store_true")
    kind.add_argument("--mend", action="store_true")
    parser.add_argument("command", nargs=argparse.REMAINDER)
    given = parser.parse_args()
    if not given.command:
        parser.error("no command given")
    return judged(differences(given))


if __name__ == "__main__":
    sys.exit(main())
