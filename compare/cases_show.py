"""Recordings for `show`: days of transactions with every payload that it reads, whole, wrong and out of order."""

from compare.bits import TYPES, maybe_damaged, row_bytes, some_bytes, type_code, u32, value_bytes
from compare.cases_datasets import property_bytes
from compare.cases_recording import random_record, record
from compare.cases_session import whole
from model import datasets, names

COMMAND, DATA, RESPONSE, EVENT = 1, 2, 3, 4
IN, OUT, NOTE = 1, 2, 3
OK, BUSY = 0x2001, 0x2019
PROPERTIES = [0x5001, 0x500D, 0x5010, 0xD005]
OF_PROPERTIES = ["GetDevicePropDesc", "GetDevicePropValue", "SetDevicePropValue"]


def words(numbers):
    return b"".join(number.to_bytes(4, "little") for number in numbers)


def parameters(rng):
    made = words(u32(rng) for _ in range(rng.choice([0, 1, 1, 2, 3, 5, 6])))
    return made if rng.random() < 0.95 else made + some_bytes(rng, 3)


def counted_row(rng):
    return row_bytes(rng, [0x4006])


def described(rng, layout, code):
    """A description of this property."""
    return code.to_bytes(2, "little") + property_bytes(rng, layout, type_of(code) if rng.random() < 0.8 else None)[2:]


def type_of(code):
    """The type that a property mostly has, another for each."""
    return TYPES[code % len(TYPES)]


def payload_of(rng, name, layout, code):
    """What a command's data holds, mostly; of a property by its code."""
    rows = {"GetDeviceInfo": datasets.DEVICE, "GetStorageInfo": datasets.STORAGE, "GetObjectInfo": datasets.OBJECT, "SendObjectInfo": datasets.OBJECT}
    if name in rows:
        return row_bytes(rng, rows[name])
    if name in ("GetStorageIDs", "GetObjectHandles"):
        return counted_row(rng)
    if name == "GetDevicePropDesc":
        return described(rng, layout, code)
    if name in ("GetDevicePropValue", "SetDevicePropValue"):
        return value_bytes(rng, type_of(code) if rng.random() < 0.8 else type_code(rng))
    return words([u32(rng)]) if name == "GetNumObjects" else some_bytes(rng, 40)


def aside(rng):
    """What may stand between the records of a transaction."""
    if rng.random() < 0.5:
        text = rng.choice([b"next frame", "côté A".encode(), b"\x1b[2J", b"\xff\xfe", b"", "\u202e\U0001F3AC\n".encode()])
        return record(NOTE, text)
    return record(IN if rng.random() < 0.9 else OUT, whole(EVENT, rng.choice([*range(0x4000, 0x4010), 0xC001]), u32(rng), parameters(rng)))


def transaction(rng, number, layout):
    """A command with data and a Response, mostly of its number."""
    name = rng.choice(names.COMMANDS) if rng.random() < 0.6 else rng.choice(OF_PROPERTIES)
    code = names.command_code(name) if rng.random() < 0.95 else rng.getrandbits(16)
    of = rng.choice(PROPERTIES)
    sent = words([of]) if name in OF_PROPERTIES and rng.random() < 0.95 else parameters(rng)
    parts = [record(OUT if rng.random() < 0.98 else IN, whole(COMMAND, code, number, sent))]
    for _ in range(rng.choice([0, 1, 1, 1, 1, 2])):
        payload = payload_of(rng, name, layout, of)
        own = number if rng.random() < 0.97 else u32(rng)
        carried = code if rng.random() < 0.97 else rng.getrandbits(16)
        parts.append(record(rng.choice([IN, OUT]), whole(DATA, carried, own, maybe_damaged(rng, payload) if rng.random() < 0.3 else payload)))
    if rng.random() < 0.95:
        answer = rng.choice([OK, OK, OK, OK, BUSY, 0xA001])
        parts.append(record(IN if rng.random() < 0.98 else OUT, whole(RESPONSE, answer, number if rng.random() < 0.97 else u32(rng),
                                                                      parameters(rng) if rng.random() < 0.2 else b"")))
    for _ in range(rng.choice([0, 0, 0, 1, 2])):
        parts.insert(rng.randrange(len(parts) + 1), aside(rng))
    return b"".join(parts)


def introduced(rng, layout):
    """Each property described, of a type of chance, so that values are read by it."""
    for number, code in enumerate(PROPERTIES):
        asked = names.command_code("GetDevicePropDesc")
        yield record(OUT, whole(COMMAND, asked, number, words([code])))
        yield record(IN, whole(DATA, asked, number, described(rng, layout, code)))
        yield record(IN, whole(RESPONSE, OK, number, b""))


def made_day(rng, layout):
    """Some transactions, their numbers mostly in order; now and then damage."""
    number, parts = rng.choice([0, 1, 7, 4_294_967_293]), [*introduced(rng, layout)] if rng.random() < 0.4 else []
    for _ in range(rng.randrange(1, 13)):
        parts.append(transaction(rng, number, layout) if rng.random() < 0.95 else random_record(rng))
        number = number + 1 if rng.random() < 0.97 and number < 0xFFFFFFFE else rng.choice([0, 1, 5])
    data = b"".join(parts)
    return maybe_damaged(rng, data) if rng.random() < 0.2 else data
