"""Random parts of questions: bytes, strings, values, damage. Every function takes its source of chance first."""

from collections import namedtuple

from model import values
from model.refusals import Refused

# A question's cases: `short(rng)` gives its short and edge cases, all of them; `one(rng)` makes a random one (None: there are no more).
Cases = namedtuple("Cases", "short one")

TYPES = list(values.WIDTHS) + [values.ARRAY_BIT + code for code in values.WIDTHS] + [values.STRING]
ARRAY_TYPES = [values.ARRAY_BIT + code for code in values.WIDTHS]
# No types: neighbours of types, and codes that a wrong mask would take for one.
OTHER_TYPES = [0x0000, 0x000B, 0x0011, 0x0104, 0x4000, 0x400B, 0x8004, 0xC004, 0x4104, 0xFFFE, 0x00FF]
EDGES_32 = [0, 1, 2, 11, 12, 13, 0x7FFFFFFF, 0x80000000, 0xFFFFFFF3, 0xFFFFFFF4, 0xFFFFFFFE, 0xFFFFFFFF]
EDGES_64 = EDGES_32 + [1 << 32, (1 << 63) - 1, 1 << 63, (1 << 64) - 16, (1 << 64) - 2, (1 << 64) - 1]
# Counts whose product with an item's width is small, or 0, in 32 bits.
WRAPPING_COUNTS = [0x10000000, 0x10000001, 0x20000000, 0x20000001, 0x40000000, 0x40000001, 0x80000000, 0x80000001,
                   0xFFFFFFFF]
EDGE_UNITS = [0x0000, 0x0001, 0x002F, 0x0041, 0x007F, 0x0080, 0x07FF, 0x0800, 0xD7FF, 0xE000, 0xFEFF, 0xFFFD, 0xFFFF]
SURROGATES = [0xD800, 0xD83D, 0xDBFF, 0xDC00, 0xDE00, 0xDFFF]


def hexed(data):
    return data.hex() or "-"


def listed(numbers):
    return ",".join(map(str, numbers)) or "-"


def some_bytes(rng, most):
    return rng.randbytes(rng.randrange(most + 1))


def u32(rng):
    return rng.choice(EDGES_32) if rng.random() < 0.4 else rng.getrandbits(rng.choice([4, 8, 16, 32]))


def type_code(rng):
    chance = rng.random()
    if chance < 0.85:
        return rng.choice(TYPES)
    return rng.choice(OTHER_TYPES) if chance < 0.95 else rng.getrandbits(16)


def paired_units(rng, count):
    """At most `count` units, with every surrogate in a pair."""
    units = []
    while len(units) < count:
        if rng.random() < 0.2 and len(units) + 2 <= count:
            units += [rng.randrange(0xD800, 0xDC00), rng.randrange(0xDC00, 0xE000)]
        else:
            units.append(rng.choice(EDGE_UNITS) if rng.random() < 0.3 else rng.randrange(0x20, 0xD800))
    return units


def wild_units(rng, count):
    pool = EDGE_UNITS + SURROGATES * 2
    return [rng.choice(pool) for _ in range(count)]


def unit_count(rng):
    """Mostly short; at times around the longest."""
    return rng.choice([252, 253, 254]) if rng.random() < 0.02 else rng.randrange(7)


def string(rng, units):
    """A spelling of the units, tidy or not: the last unit is not looked at, and empty has two spellings."""
    if not units and rng.random() < 0.6:
        return b"\x00"
    last = 0 if rng.random() < 0.6 else rng.choice(EDGE_UNITS + SURROGATES)
    return bytes([len(units) + 1]) + b"".join(unit.to_bytes(2, "little") for unit in units + [last])


def any_string(rng):
    """A whole string, with surrogates in pairs but for one string in thirty."""
    make = wild_units if rng.random() < 1 / 30 else paired_units
    return string(rng, make(rng, unit_count(rng)))


def value_bytes(rng, code):
    """Bytes that are one whole value of the type (a string's units may be wild)."""
    if code in values.WIDTHS:
        return number_bytes(rng, values.WIDTHS[code])
    item = values.item_code(code)
    if item is not None:
        count = rng.randrange(300) if rng.random() < 0.01 else rng.randrange(5)
        return count.to_bytes(4, "little") + b"".join(number_bytes(rng, values.WIDTHS[item]) for _ in range(count))
    return any_string(rng) if code == values.STRING else b""


def number_bytes(rng, width):
    if rng.random() < 0.5:
        return rng.randbytes(width)
    edge = rng.choice([0, 1, (1 << 8 * width - 1) - 1, 1 << 8 * width - 1, (1 << 8 * width) - 1])
    return edge.to_bytes(width, "little")


def row_bytes(rng, types):
    return b"".join(value_bytes(rng, code) for code in types)


def damaged(rng, data):
    """A copy with one thing wrong with it."""
    way = rng.randrange(6)
    if way == 0:
        return data[:rng.randrange(len(data) + 1)]
    if way == 1:
        return data + some_bytes(rng, 4)
    at = rng.randrange(len(data) + 1)
    if way == 2:
        return data[:at] + some_bytes(rng, 3) + data[at:]
    if way == 3:
        return data[:at] + data[at + rng.randrange(1, 4):]
    if not data:
        return data
    at = rng.randrange(len(data))
    changed = data[at] ^ (1 << rng.randrange(8)) if way == 4 else rng.choice([0, 1, 2, 0x7F, 0x80, 0xD8, 0xDC, 0xFF])
    return data[:at] + bytes([changed]) + data[at + 1:]


def maybe_damaged(rng, data):
    """As it is, damaged, or random bytes of about its length."""
    chance = rng.random()
    if chance < 0.45:
        return data
    if chance < 0.95:
        return damaged(rng, data)
    return rng.randbytes(max(0, len(data) + rng.randrange(-2, 3)))


def room_for(rng, make):
    """Exactly full, one short, none, or some to spare, for what `make` would write (some size if it refuses)."""
    try:
        need = len(make())
    except Refused:
        need = rng.randrange(12)
    return rng.choice([need, need, max(0, need - 1), need + 1, need + rng.randrange(9), rng.randrange(need + 1), 0])
