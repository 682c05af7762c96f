"""Cases for names, values and their writers. Each question has its short cases, all of them, and a random one."""

import itertools

from compare.bits import (ARRAY_TYPES, EDGES_64, OTHER_TYPES, TYPES, WRAPPING_COUNTS, Cases, hexed, listed,
                          maybe_damaged, number_bytes, paired_units, room_for, some_bytes, type_code, value_bytes,
                          wild_units)
from model import values

KEY_UNITS = [0x0041, 0x0000, 0xD800, 0xDBFF, 0xDC00, 0xDFFF, 0xE000]
# A reader may look through units in blocks of so many; strings around one block, two and the longest.
BLOCK = 16
RUN_LENGTHS = (0, 1, 15, 16, 17, 31, 32, 33, 253, 254)
# What stands in a run of ASCII: a unit around the limits, a pair, a surrogate alone, two that are no pair.
IN_RUNS = [(0x7F,), (0x80,), (0xD7FF,), (0xE000,), (0xFFFF,), (0xD83D, 0xDE00), (0xDBFF,), (0xDC00,),
           (0xD800, 0xDBFF), (0xDC00, 0xDFFF), (0xDC00, 0xD800)]
# Code points at the limits of one, two, three and four bytes of UTF-8.
AT_LIMITS = "\x7F\x80\u07FF\u0800\U00010000"


def names(question, first, count):
    """Every code, those of the table and around it first."""
    near = range(first - 8, first + count + 8)

    def short(rng):
        for code in itertools.chain(near, (code for code in range(0x10000) if code not in near)):
            yield f"{question} {code}"
    return Cases(short, None)


def string_bytes(units, last=0):
    return bytes([len(units) + 1]) + b"".join(unit.to_bytes(2, "little") for unit in (*units, last))


def key_strings():
    """Every string of up to four key units, with a last unit that is no text."""
    for count in range(5):
        for units in itertools.product(KEY_UNITS, repeat=count):
            yield string_bytes(units, 0xDC00)


def edge_strings():
    """The longest strings, whole and one byte short, with a lone surrogate at either end or none."""
    for count in (252, 253, 254):
        for units in ([0x41] * count, [0x41] * (count - 1) + [0xD800], [0xDC00] + [0x41] * (count - 1),
                      [0xD800, 0xDC00] * (count // 2) + [0x20AC] * (count % 2)):
            whole = string_bytes(units)
            yield from (whole, whole[:-1], whole[:-2], whole + b"\x00")


def ascii_runs():
    """Runs of ASCII alone; the last unit, which is not looked at, is 0 or half of a pair."""
    for length, last in itertools.product(RUN_LENGTHS, (0, 0xD800, 0xDFFF)):
        yield string_bytes([0x41] * length, last)


def broken_runs(at_edges):
    """Runs of ASCII with something in them at each place: the places where a block or the run begins or ends, or the others."""
    for length, put in itertools.product(RUN_LENGTHS, IN_RUNS):
        for place in range(length - len(put) + 1):
            after = length - len(put) - place
            if (place % BLOCK in (0, BLOCK - 1) or after == 0) == at_edges:
                yield string_bytes([0x41] * place + [*put] + [0x41] * after, 0xDC00)


def edge_runs():
    return itertools.chain(ascii_runs(), broken_runs(True))


def mixed_strings():
    """Every row of up to five code points at the limits. A writer of UTF-8 may put as many as fill four bytes at once: so those that do and
    those that do not, and what is left after them."""
    for count in range(1, 6):
        for points in itertools.product(AT_LIMITS, repeat=count):
            units = "".join(points).encode("utf-16-le")
            yield bytes([len(units) // 2 + 1]) + units + bytes(2)


def wrapping_arrays():
    """Counts that a product in 32 bits would take for small ones."""
    for code, count, after in itertools.product(ARRAY_TYPES, WRAPPING_COUNTS, (0, 1, 16, 40)):
        yield code, count.to_bytes(4, "little") + bytes(after)


def key_bytes():
    """Every known type with bytes of key values."""
    for code, length in itertools.product([0, *TYPES], (2, 3, 4, 5, 6)):
        for picked in itertools.product((0x00, 0x01, 0x02, 0xFF), repeat=min(length, 4)):
            yield code, bytes(picked) + bytes(length - len(picked))


def short_values():
    """Every type with no byte and with every one byte, wrong products, key strings, runs, every 7th 16-bit value and 13th code."""
    for code in [0, *TYPES, *OTHER_TYPES]:
        yield code, b""
        yield from ((code, bytes([byte])) for byte in range(256))
    yield from wrapping_arrays()
    yield from ((values.STRING, data) for data in itertools.chain(edge_strings(), key_strings(), edge_runs(), broken_runs(False)))
    yield from key_bytes()
    yield from ((code, data.to_bytes(2, "little")) for code in (3, 4) for data in range(0, 0x10000, 7))
    yield from ((code, b"\x01\x00\x00\x00\x05") for code in range(0, 0x10000, 13))


def place_in(rng, data, usual):
    """Mostly the usual place; at times another, also past the end."""
    chance = rng.random()
    if chance < 0.9:
        return usual
    return rng.choice(EDGES_64) if chance < 0.93 else rng.randrange(len(data) + 3)


def placed(rng, code):
    """A value, whole or damaged, with bytes around it, and the place where it stands."""
    before = some_bytes(rng, 3)
    data = before + maybe_damaged(rng, value_bytes(rng, code)) + some_bytes(rng, 2)
    return place_in(rng, data, len(before)), data


def short_value(rng):
    return (f"value {code} 0 {hexed(data)}" for code, data in short_values())


def one_value(rng):
    code = type_code(rng)
    at, data = placed(rng, code)
    return f"value {code} {at} {hexed(data)}"


def short_end(rng):
    for length, at in itertools.product(range(5), range(8)):
        yield f"end {at} {hexed(bytes(length))}"
    for at in EDGES_64:
        yield f"end {at} 00"


def one_end(rng):
    data = some_bytes(rng, 20)
    return f"end {place_in(rng, data, rng.randrange(len(data) + 2))} {hexed(data)}"


def index_in(rng, count):
    return rng.choice(EDGES_64) if rng.random() < 0.05 else rng.choice([0, max(0, count - 1), count, rng.randrange(count + 2)])


def short_unit(rng):
    for data, index in itertools.product(itertools.islice(key_strings(), 400), range(4)):
        yield f"unit {index} 0 {hexed(data)}"
    for data, index in itertools.product(edge_strings(), (0, 252, 253, 254, 255)):
        yield f"unit {index} 0 {hexed(data)}"


def one_unit(rng):
    at, data = placed(rng, values.STRING)
    count = data[at] if at < len(data) else 0
    return f"unit {index_in(rng, count)} {at} {hexed(data)}"


def short_item(rng):
    for code, index in itertools.product([*TYPES, *OTHER_TYPES], range(4)):
        yield f"item {code} {index} 0 -"
        yield f"item {code} {index} 0 {hexed(bytes([2, 0, 0, 0, *range(200, 240)]))}"
    for code, data in wrapping_arrays():
        yield f"item {code} 0 0 {hexed(data)}"


def one_item(rng):
    code = rng.choice(ARRAY_TYPES) if rng.random() < 0.9 else type_code(rng)
    at, data = placed(rng, code)
    return f"item {code} {index_in(rng, rng.randrange(6))} {at} {hexed(data)}"


def short_units(rng):
    for data in itertools.chain(itertools.islice(key_strings(), 400), edge_strings()):
        yield from (f"units 0 {hexed(data)} {room}" for room in (0, 1, 2, 300))


def one_units(rng):
    at, data = placed(rng, values.STRING)
    return f"units {at} {hexed(data)} {rng.choice((0, 1, 3, 254, 300))}"


def short_numbers(rng):
    """Of every type, each count around what the bytes hold and what the room does, at places up to the end and past it."""
    data = bytes([0, 0x80, 0xFF, 0x7F, *range(200, 240)])
    for code, count, room in itertools.product([*TYPES, *OTHER_TYPES], (0, 1, 2, 44), (0, 1, 2, 45)):
        yield f"numbers {code} 0 {count} {hexed(data)} {room}"
    for code, at, count in itertools.product(range(1, 9), (*range(5), 43, 44, 45, *EDGES_64), (0, 1, 5, 6, 11, 22, 43, *EDGES_64)):
        yield f"numbers {code} {at} {count} {hexed(data)} 50"


def one_numbers(rng):
    code = rng.randrange(1, 9) if rng.random() < 0.9 else type_code(rng)
    count = rng.randrange(40)
    data = rng.randbytes(rng.randrange(4) + count * rng.choice((1, 2, 4, 8)))
    return f"numbers {code} {rng.randrange(4)} {max(0, count - rng.randrange(4))} {hexed(data)} {max(0, count + rng.randrange(-1, 3))}"


def utf8_of(data, at):
    return values.utf8(values.read_string(data, at)[0])


def short_utf8(rng):
    for data in itertools.chain(edge_strings(), key_strings()):
        yield f"utf8 0 {hexed(data)} {room_for(rng, lambda: utf8_of(data, 0))}"
    for unit in range(0, 0x10000, 11):
        yield f"utf8 0 {hexed(string_bytes([unit]))} 4"
    for data in itertools.chain(edge_runs(), mixed_strings()):
        yield f"utf8 0 {hexed(data)} {room_for(rng, lambda: utf8_of(data, 0))}"


def one_utf8(rng):
    at, data = placed(rng, values.STRING)
    return f"utf8 {at} {hexed(data)} {room_for(rng, lambda: utf8_of(data, at))}"


def integer_word(rng, code):
    """A value of the type as `write-value` takes it, from bytes of its width."""
    number = values.number_of(code, number_bytes(rng, values.WIDTHS[code]))
    if values.WIDTHS[code] == 16:
        return f"{number[0]}:{number[1]}"
    return str(number) if rng.random() < 0.8 else f"{number:#x}"


def short_write_value(rng):
    for code, room in itertools.product(OTHER_TYPES, range(3)):
        yield f"write-value {code} undef {room}"
    for code, byte in itertools.product((1, 2), range(256)):
        yield f"write-value {code} {values.number_of(code, bytes([byte]))} 2"


def one_write_value(rng):
    code = rng.choice(list(values.WIDTHS))
    return f"write-value {code} {integer_word(rng, code)} {room_for(rng, lambda: bytes(values.WIDTHS[code]))}"


def write_string_case(rng, units):
    return f"write-string {listed(units)} {room_for(rng, lambda: values.write_string(units))}"


def short_write_string(rng):
    for count in (253, 254, 255, 256, 257, 510, 1000, 4096):
        for units in ([0x41] * count, [0x41] * (count - 1) + [0xD800], paired_units(rng, count)):
            yield from (write_string_case(rng, units) for _ in range(4))
    for count in range(5):
        for units in itertools.product(KEY_UNITS, repeat=count):
            yield write_string_case(rng, list(units))


def one_write_string(rng):
    count = rng.choice([253, 254, 255, 256]) if rng.random() < 0.05 else rng.randrange(12)
    return write_string_case(rng, paired_units(rng, count) if rng.random() < 0.7 else wild_units(rng, count))


def write_array_case(rng, code, items):
    return f"write-array {code} {hexed(items)} {room_for(rng, lambda: values.write_array(code, items))}"


def short_write_array(rng):
    for length, code in itertools.product(range(36), [*TYPES, *OTHER_TYPES]):
        yield write_array_case(rng, code, bytes(range(length)))


def array_items(rng, code):
    """Mostly a whole number of items."""
    item = values.item_code(code)
    width = values.WIDTHS[item] if item is not None and rng.random() < 0.8 else 1
    return rng.randbytes(width * rng.randrange(8))


def one_write_array(rng):
    code = rng.choice(ARRAY_TYPES) if rng.random() < 0.95 else type_code(rng)
    return write_array_case(rng, code, array_items(rng, code))


def tidy_value_case(rng, code, data):
    return f"tidy-value {code} {hexed(data)} {room_for(rng, lambda: values.tidy_value(code, data))}"


def short_tidy_value(rng):
    for data in edge_strings():
        yield tidy_value_case(rng, values.STRING, data)
    for code, data in itertools.islice(short_values(), 0, None, 9):
        yield tidy_value_case(rng, code, data)


def one_tidy_value(rng):
    code = type_code(rng)
    return tidy_value_case(rng, code, maybe_damaged(rng, value_bytes(rng, code)) + some_bytes(rng, 2))


VALUE_CASES = {
    "value": Cases(short_value, one_value),
    "end": Cases(short_end, one_end),
    "unit": Cases(short_unit, one_unit),
    "item": Cases(short_item, one_item),
    "units": Cases(short_units, one_units),
    "numbers": Cases(short_numbers, one_numbers),
    "utf8": Cases(short_utf8, one_utf8),
    "write-value": Cases(short_write_value, one_write_value),
    "write-string": Cases(short_write_string, one_write_string),
    "write-array": Cases(short_write_array, one_write_array),
    "tidy-value": Cases(short_tidy_value, one_tidy_value),
}
