"""Cases for mending: sound recordings, and small ones with every byte changed, removed and doubled; rooms around both outputs' need."""

import itertools

from compare.bits import Cases, damaged, hexed, some_bytes
from compare.cases_recording import MANY_NOTES, OK_RESPONSE, random_record, record, short_records, small_recording, whole
from model import mending
from model.ask import LONGEST_LIST
from model.recording import MOST_BODY

NOTE, SENT, RECEIVED = record(3, b"AB"), record(2, whole(1, 0x1002, 0, b"")), record(1, OK_RESPONSE)


def sound():
    yield from (b"", NOTE, SENT, RECEIVED, record(3, b""), NOTE + SENT + RECEIVED, small_recording())


def each_byte():
    """A small recording with each byte changed in two ways, removed and doubled, and cut there."""
    data = small_recording()
    for at in range(len(data)):
        front, byte, rest = data[:at], data[at], data[at + 1:]
        yield from (front + bytes([changed]) + rest for changed in (byte ^ 1, 0xFF - byte))
        yield from (front + rest, front + bytes([byte, byte]) + rest, front)


def damaged_parts():
    """Damage before, between and behind records; one record between two stretches; records that damage hides or makes."""
    bad = [b"\xff", b"\x00" * 5, record(4, b"AB"), record(1, OK_RESPONSE[:9]), record(1, OK_RESPONSE + b"\x00")]
    for one, other in itertools.product(bad, repeat=2):
        yield from (one, one + RECEIVED, RECEIVED + one, one + RECEIVED + other, one + NOTE + SENT + other + RECEIVED, one + other)
    # a record inside the body of one that is damaged, and in one that is whole
    for inner in (NOTE, RECEIVED, NOTE + RECEIVED):
        yield from (record(4, inner), record(3, inner), record(3, inner)[:-1], record(1, inner) + SENT, record(3, inner, len(inner) + 7))
    # a container whose record's header is lost, of each length that a note or a record can have
    for kind in (1, 2, 3, 4):
        yield from (whole(kind, code, 0, b"ABCD")[:cut] for code in (0x2001, 0) for cut in (11, 12, 16))
    yield bytes(300)


def longer():
    """The longest record, whole, cut and damaged; many notes with damage between."""
    long = record(3, bytes([3]) * MOST_BODY)
    yield from (long, long[:-1], long + b"\x00", b"\x00" + long, NOTE + long[1:] + NOTE, SENT + record(3, bytes(MOST_BODY + 1)) + NOTE)
    yield record(3, b"") * MANY_NOTES
    yield (record(3, b"") + b"\xff") * 600
    yield (b"\xff" + record(3, b"")) * LONGEST_LIST
    yield (b"\xff" + record(3, b"")) * (LONGEST_LIST + 1)


def broken_recordings():
    short = (data for data in short_records() if len(data) < MOST_BODY)
    yield from itertools.chain(sound(), each_byte(), damaged_parts(), longer(), short)


def around(need):
    return sorted({0, max(need, 1) - 1, need, need + 1})


def asked(data, room, most):
    return f"mend {hexed(data)} {room} {most}"


def short_mend(rng):
    """The exact rooms; then each too small by one, both, neither, and to spare."""
    for data in broken_recordings():
        made = mending.mend(data)
        rooms, reports = (around(need) for need in (len(made.data), len(made.dropped)))
        needed = min(len(made.dropped), LONGEST_LIST)
        yield asked(data, len(made.data), needed)
        if len(data) < 200:
            yield from (asked(data, room, most) for room, most in itertools.product(rooms, reports) if most <= LONGEST_LIST)
    yield asked(b"\xff", 0, LONGEST_LIST)


def random_recording(rng):
    """A few records with things wrong with them, or none."""
    data = b"".join(random_record(rng) for _ in range(rng.randrange(9)))
    for _ in range(rng.randrange(4)):
        data = damaged(rng, data)
    return data + some_bytes(rng, 3) if rng.random() < 0.2 else data


def one_mend(rng):
    data = random_recording(rng)
    made = mending.mend(data)
    room = rng.choice([len(made.data), len(made.data), *around(len(made.data)), len(data)])
    return asked(data, room, rng.choice([len(made.dropped), len(made.dropped), *around(len(made.dropped)), 9]))


MENDING_CASES = {"mend": Cases(short_mend, one_mend)}
