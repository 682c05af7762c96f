"""Cases for containers, transactions and camera calls."""

import itertools

from compare.bits import EDGES_32, Cases, damaged, hexed, listed, maybe_damaged, number_bytes, room_for, some_bytes, u32
from compare.cases_datasets import row
from model import containers, datasets, session

HEADER = containers.HEADER
OK = session.OK
KINDS = [0, 1, 2, 3, 4, 5, 6, 255, 256, 257, 259, 0xFFFF]
# Around the Rust's first read of 8 KiB.
LONG_TOTALS = [8191, 8192, 8193, 8204, 16384, 20000]
RARE = 0.002
# The states and codes at which the numbers' rule turns, with their neighbours.
STATES = [0, 1, 2, 0xFFFFFFFD, 0xFFFFFFFE, 0xFFFFFFFF]
SESSION_CODES = [session.OPEN_SESSION, session.CLOSE_SESSION]
NEAR_CODES = [0x1001, *SESSION_CODES, 0x1004]


def head(length, kind, code, number):
    return b"".join(value.to_bytes(width, "little") for value, width in ((length, 4), (kind, 2), (code, 2), (number, 4)))


def whole(kind, code, number, payload):
    return head(HEADER + len(payload), kind, code, number) + payload


def short_headers():
    """Every announced length around 12 with every kind, cut at every byte."""
    for length, kind in itertools.product([*range(15), 0x0C00, *EDGES_32], KINDS):
        for cut in (0, 3, 4, 5, 6, 7, 8, 11, 12, 13):
            yield (head(length, kind, OK, 7) + b"\xee")[:cut]


def random_container(rng):
    kind = rng.choice([1, 2, 3, 4]) if rng.random() < 0.8 else rng.choice(KINDS)
    payload = some_bytes(rng, 12)
    length = HEADER + len(payload)
    if rng.random() < 0.3:
        length = rng.choice([max(0, length - 1), length + 1, *EDGES_32])
    return maybe_damaged(rng, head(length, kind, rng.getrandbits(16), u32(rng)) + payload)


def long_containers(rng):
    for total in LONG_TOTALS:
        data = whole(2, 0x1009, 7, rng.randbytes(total - HEADER))
        yield from (data, data[:-1], data + b"\x00")


def on_container(question):
    def short(rng):
        for data in itertools.chain(long_containers(rng), short_headers()):
            yield f"{question} {hexed(data)}"
    return Cases(short, lambda rng: f"{question} {hexed(random_container(rng))}")


def short_write_container(rng):
    for kind, length in itertools.product(KINDS, range(4)):
        for room in (HEADER + length, HEADER + length - 1, HEADER + length + 1, 0):
            yield f"write-container {kind} 4098 7 {hexed(bytes(length))} {room}"


def one_write_container(rng):
    kind = rng.choice([1, 2, 3, 4]) if rng.random() < 0.9 else rng.choice([*KINDS, rng.getrandbits(16)])
    code, number, payload = rng.getrandbits(16), u32(rng), some_bytes(rng, 16)
    room = room_for(rng, lambda: containers.write_container(kind, code, number, payload))
    return f"write-container {kind} {code} {number} {hexed(payload)} {room}"


def state(rng):
    return rng.choice(STATES) if rng.random() < 0.2 else u32(rng)


def command_code(rng):
    return rng.choice(SESSION_CODES) if rng.random() < 0.2 else rng.getrandbits(16)


def parameters(rng):
    return [u32(rng) for _ in range(rng.choice([0, 1, 2, 3, 4, 5, 5, 6, 7]))]


def short_command(rng):
    for number, code, room in itertools.product(STATES, NEAR_CODES, (HEADER - 1, HEADER)):
        yield f"command {number} {code} - {room}"
    for (number, code), count in itertools.product(((0, 4098), (7, 4100), (0xFFFFFFFE, 4100)), (*range(9), 300)):
        need = HEADER + 4 * count
        for room in (0, need, need - 1, need + 1):
            yield f"command {number} {code} {listed(range(count))} {room}"


def one_command(rng):
    number, code, given = state(rng), command_code(rng), parameters(rng)
    room = room_for(rng, lambda: session.command(number, code, given).output)
    return f"command {number} {code} {listed(given)} {room}"


def short_command_data(rng):
    for number, code, room in itertools.product(STATES, NEAR_CODES, (2 * HEADER - 1, 2 * HEADER)):
        yield f"command-data {number} {code} - - {room}"
    for number, count, length in itertools.product((0, 7, 0xFFFFFFFE), range(8), range(3)):
        need = 2 * HEADER + 4 * count + length
        for room in (0, need - length - 1, need, need - 1, need + 1, HEADER + 4 * count):
            yield f"command-data {number} 4118 {listed(range(count))} {hexed(bytes(length))} {room}"


def one_command_data(rng):
    number, code, given, payload = state(rng), command_code(rng), parameters(rng), some_bytes(rng, 16)
    room = room_for(rng, lambda: session.command_with_data(number, code, given, payload).output)
    return f"command-data {number} {code} {listed(given)} {hexed(payload)} {room}"


def short_call(rng):
    for name, number in itertools.product(session.CALLS, STATES):
        yield f"call {name} {number} 65537 0 1 24"
    for name, handle, wanted in itertools.product(session.CALLS, (0, 1, 0xFFFFFFFF), (0, 0x3801)):
        for room in (11, 12, 15, 16, 23, 24, 25):
            yield f"call {name} 7 65537 {wanted} {handle} {room}"


def one_call(rng):
    words = rng.choice(list(session.CALLS)), state(rng), u32(rng), u32(rng), u32(rng)
    return f"call {' '.join(map(str, words))} {room_for(rng, lambda: session.call(*words).output)}"


def short_transactions():
    """Every row of up to three containers of every kind, right or wrong number, empty payload or not."""
    one = [whole(kind, code, number, payload)
           for kind, code in ((1, 0x1009), (2, 0x1009), (3, OK), (3, 0x2002), (4, 0x4002))
           for number in (7, 8) for payload in (b"", b"\x41\x42")]
    for count in (0, 1, 2):
        for row in itertools.product(one, repeat=count):
            yield b"".join(row)
    good = [data for data in one if data[8] == 7]
    for row in itertools.product(good, repeat=3):
        yield b"".join(row)


def cut_transactions():
    """A transaction with Data, another Data, an Event and a Response, cut at every byte, each byte changed."""
    data = (whole(2, 0x1009, 7, b"\x01\x02\x03") + whole(4, 0x4002, 7, b"\x05\x00\x00\x00")
            + whole(2, 0x1009, 7, b"\x09") + whole(3, OK, 7, b"") + b"\xee\xee")
    for length in range(len(data) + 1):
        yield data[:length]
    for at, byte in itertools.product(range(len(data)), (0, 1, 3, 7, 12, 255)):
        yield data[:at] + bytes([byte]) + data[at + 1:]


def long_transactions(rng):
    for total in LONG_TOTALS:
        yield whole(2, 0x1009, 7, rng.randbytes(total - HEADER)) + whole(3, OK, 7, b"")
        yield whole(3, OK, 7, rng.randbytes(total - HEADER)) + b"\xee"


def phase(rng, number):
    kind = rng.choice([1, 2, 2, 2, 3, 3, 4])
    code = rng.choice([OK, OK, OK, 0x2002, 0x1009, rng.getrandbits(16)])
    if rng.random() < 0.03:
        number = u32(rng)
    size = rng.choice(LONG_TOTALS) if rng.random() < RARE else rng.randrange(9)
    return whole(kind, code, number, rng.randbytes(size))


def transaction(rng, number):
    data = b"".join(phase(rng, number) for _ in range(rng.randrange(7)))
    if rng.random() < 0.7:
        data += whole(3, rng.choice([OK, OK, 0x2019]), number, b"")
    return data + some_bytes(rng, 3)


def on_transaction(question):
    """The answer, the Response itself, or how many bytes are needed."""
    def short(rng):
        for number in EDGES_32:
            yield f"{question} {number} {hexed(whole(2, 0x1009, number, b'A') + whole(3, OK, number, b''))}"
        for data in itertools.chain(long_transactions(rng), cut_transactions(), short_transactions()):
            yield f"{question} 7 {hexed(data)}"

    def one(rng):
        number = state(rng)
        data = transaction(rng, number)
        return f"{question} {number} {hexed(damaged(rng, data) if rng.random() < 0.3 else data)}"
    return Cases(short, one)


def short_needed(rng):
    """Of each kind with every announced length around 12, cut at every byte, alone and behind a container of the number; each number that is all but ours."""
    before = whole(2, 0x1009, 7, b"\x01")
    for length, kind, number in itertools.product([0, 11, 12, 13, 20, *EDGES_32], [0, 1, 2, 3, 4, 5, 259], (7, 8)):
        for cut in (*range(14), 20):
            data = (head(length, kind, OK, number) + bytes(8))[:cut]
            yield from (f"needed 7 {hexed(data)}", f"needed 7 {hexed(before + data)}")
    yield from on_transaction("needed").short(rng)


def number_array(rng):
    count = rng.choice(LONG_TOTALS) // 4 if rng.random() < RARE else rng.randrange(6)
    return count.to_bytes(4, "little") + b"".join(number_bytes(rng, 4) for _ in range(count))


def short_number_arrays(rng):
    """Fewer bytes than a count, counts and lengths of every relation, payloads around the Rust's first read."""
    yield from (bytes(length) for length in range(4))
    for count, length in itertools.product((0, 1, 2, 3, 0x40000000, 0x40000001, 0xFFFFFFFF), range(14)):
        yield count.to_bytes(4, "little") + bytes(length)
    for total in LONG_TOTALS:
        for count in ((total - HEADER) // 4 - 1, (total - HEADER) // 4):
            yield count.to_bytes(4, "little") + rng.randbytes(4 * count)


def on_number_array(question):
    return Cases(lambda rng: (f"{question} {hexed(data)}" for data in short_number_arrays(rng)),
                 lambda rng: f"{question} {hexed(maybe_damaged(rng, number_array(rng)))}")


def short_object_count(rng):
    for length in range(9):
        yield f"object-count {hexed(bytes(range(length)))}"
    for number in EDGES_32:
        yield f"object-count {number.to_bytes(4, 'little').hex()}"


def one_object_count(rng):
    return f"object-count {hexed(maybe_damaged(rng, rng.randbytes(4)))}"


SESSION_CASES = {
    "header": on_container("header"),
    "container": on_container("container"),
    "write-container": Cases(short_write_container, one_write_container),
    "command": Cases(short_command, one_command),
    "command-data": Cases(short_command_data, one_command_data),
    "call": Cases(short_call, one_call),
    "answer": on_transaction("answer"),
    "response": on_transaction("response"),
    "needed": Cases(short_needed, on_transaction("needed").one),
    "handles": on_number_array("handles"),
    "storage-ids": on_number_array("storage-ids"),
    "object-count": Cases(short_object_count, one_object_count),
    "storage-info": row("storage-info", datasets.STORAGE),
    "device-info": row("device-info", datasets.DEVICE),
    "object-info": row("object-info", datasets.OBJECT),
}
