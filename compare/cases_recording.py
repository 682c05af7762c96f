"""Cases for records, whole recordings and listings."""

import itertools

from compare.bits import EDGES_32, Cases, hexed, maybe_damaged, room_for, some_bytes, u32
from compare.cases_session import random_container, whole
from model import recording
from model.refusals import Refused

MOST = recording.MOST_BODY
KINDS = [0, 1, 2, 3, 4, 256, 257, 0xFFFF]
MANY_NOTES = 3000
OK_RESPONSE = whole(3, 0x2001, 7, b"")


def record(kind, body, length=None):
    length = recording.RECORD_HEADER + len(body) if length is None else length
    return length.to_bytes(4, "little") + kind.to_bytes(2, "little") + body


def short_records():
    """Every length and kind around their limits, with a short body, cut at every byte."""
    for length, kind in itertools.product([*range(10), 18, 6 + MOST, 7 + MOST, *EDGES_32], KINDS):
        for cut in (0, 3, 5, 6, 7, 8, 18):
            yield record(kind, OK_RESPONSE, length)[:cut]
    for body in bodies():
        for kind in (1, 2, 3):
            whole_record = record(kind, body)
            yield from (whole_record, whole_record[:-1], whole_record + b"\x00")


def bodies():
    """Bodies that are no container, or one with bytes after it, in the order of their refusals."""
    yield from (OK_RESPONSE[:length] for length in range(13))
    yield from (OK_RESPONSE + b"\x00", whole(5, 0x2001, 7, b""), whole(2, 0x1009, 7, b"AB")[:-1])
    for length in (0, 11, 12, 13, 0xFFFFFFFF):
        yield length.to_bytes(4, "little") + OK_RESPONSE[4:]
    yield from long_bodies()


def long_bodies():
    """65,000 and 65,001 bytes: a container, a container with a byte after it, a note."""
    for length in (MOST - 1, MOST, MOST + 1):
        yield whole(2, 0x1009, 7, bytes(length - 12))
        yield whole(2, 0x1009, 7, bytes(length - 13)) + b"\x00"
        yield bytes(length)


def random_body(rng, kind):
    if kind == 3:
        return some_bytes(rng, 12)
    if rng.random() < 0.1:
        return random_container(rng)
    code = rng.choice([0x1001, 0x1002, 0x2001, 0x2002, 0x1016, 0x101C, 0x101D, 0x2020, 0x2021, 0x4002, rng.getrandbits(16)])
    return whole(rng.choice([1, 2, 3, 4]), code, u32(rng), some_bytes(rng, 12))


def random_record(rng):
    kind = rng.choice([1, 1, 2, 2, 3])
    return record(kind, random_body(rng, kind))


def short_record(rng):
    return (f"record {hexed(data)}" for data in short_records())


def one_record(rng):
    return f"record {hexed(maybe_damaged(rng, random_record(rng)) + some_bytes(rng, 2))}"


def write_record_case(rng, kind, body):
    return f"write-record {kind} {hexed(body)} {room_for(rng, lambda: recording.write_record(kind, body))}"


def short_write_record(rng):
    return (write_record_case(rng, kind, body) for kind, body in itertools.product(KINDS, bodies()))


def one_write_record(rng):
    kind = rng.choice([1, 2, 3]) if rng.random() < 0.9 else rng.choice(KINDS)
    return write_record_case(rng, kind, maybe_damaged(rng, random_body(rng, kind)))


def copied_recordings():
    """None, notes alone, no notes, and both; cut at every byte; a refused record behind notes."""
    note, sent, received = record(3, b"AB"), record(2, whole(1, 0x1002, 0, b"")), record(1, OK_RESPONSE)
    both = note + received + record(3, b"") + sent + note
    yield from (note * 3, received + sent + received)
    yield from (both[:length] for length in range(len(both) + 1))
    for refused in (record(4, b"AB"), record(3, b"", 5), record(1, OK_RESPONSE[:9]), record(1, OK_RESPONSE + b"\x00"), record(3, bytes(MOST + 1))):
        yield from (note + note + refused, note + received + refused + note)
    yield record(3, b"") * MANY_NOTES


def copy_rooms(data):
    """The exact room, one less, one more and none."""
    try:
        needed = len(recording.copied(data).data)
    except Refused:
        return (0, 2)
    return sorted({0, max(needed, 1) - 1, needed, needed + 1})


def short_copy(rng):
    return (f"copy {hexed(data)} {room}" for data in itertools.chain(copied_recordings(), short_records()) for room in copy_rooms(data))


def random_recording(rng):
    """Of up to eight records, often damaged."""
    return maybe_damaged(rng, b"".join(random_record(rng) for _ in range(rng.randrange(9))))


def one_copy(rng):
    data = random_recording(rng)
    return f"copy {hexed(data)} {room_for(rng, lambda: recording.copied(data).data)}"


def read_recordings():
    """Those that are copied; one with each byte changed; joined and doubled."""
    data = small_recording()
    yield from itertools.chain(copied_recordings(), (data[:length] for length in range(len(data) + 1)), [data + data, data + data[:-1]])
    for place, value in itertools.product(range(len(data)), (0, 1, 3, 4, 6, 255)):
        yield data[:place] + bytes([value]) + data[place + 1:]
    yield from short_records()


def short_whole_recording(rng):
    return (f"recording {hexed(data)}" for data in read_recordings())


def one_whole_recording(rng):
    return f"recording {hexed(random_recording(rng))}"


def codes_listed():
    """Every kind with codes in and around each table."""
    near = [*range(0x0FFE, 0x101F), *range(0x1FFE, 0x2023), 0, 0x4001, 0xABCD, 0xFFFF]
    for kind, code in itertools.product((1, 2, 3, 4), near):
        yield record(1 + code % 2, whole(kind, code, 0xFFFFFFFF, b"AB"))


def small_recording():
    return (record(2, whole(1, 0x1002, 0, bytes([3] + [0] * 11))) + record(1, whole(3, 0x2001, 0, b""))
            + record(3, b"note") + record(1, whole(4, 0x4002, 0, b"\x05\x00\x00\x00")))


def short_recordings():
    """One of many notes, a small one cut at every byte, every code, every record of the short ones."""
    yield record(3, b"") * MANY_NOTES
    data = small_recording()
    yield from (data[:length] for length in range(len(data) + 1))
    yield from codes_listed()
    yield from short_records()


def short_listing(rng):
    return (f"listing {hexed(data)}" for data in short_recordings())


def one_listing(rng):
    return f"listing {hexed(random_recording(rng))}"


RECORDING_CASES = {
    "record": Cases(short_record, one_record),
    "recording": Cases(short_whole_recording, one_whole_recording),
    "write-record": Cases(short_write_record, one_write_record),
    "copy": Cases(short_copy, one_copy),
    "listing": Cases(short_listing, one_listing),
}
