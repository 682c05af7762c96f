"""Cases for the shutter panel: ranges of all eight types around their ends, lists whose members are spelled untidily, every order of refusals."""

import itertools

from compare.bits import Cases, hexed, maybe_damaged, room_for, string, type_code, value_bytes
from compare.cases_session import STATES, state
from model import panel, values
from model.datasets import BOOK, CRATE, LIST_FORM, RANGE_FORM

NO_FORMS = [0, 3, 0x7F, 0xFF]
ROOM = 128


def spelled(code, number):
    """An integer of the type, whatever the number: its low bytes."""
    return (number % (1 << 8 * values.WIDTHS[code])).to_bytes(values.WIDTHS[code], "little")


def ends(code):
    """The lowest and the highest of a type."""
    bits = 8 * values.WIDTHS[code]
    return (-(1 << bits - 1), (1 << bits - 1) - 1) if code % 2 else (0, (1 << bits) - 1)


def description(code, property_code, default, form):
    return property_code.to_bytes(2, "little") + code.to_bytes(2, "little") + b"\x01\x01" + default + default + form


def of_range(code, least, most, step):
    numbers = b"".join(spelled(code, number) for number in (least, most, step))
    return description(code, 0x5001, spelled(code, 0), bytes([RANGE_FORM]) + numbers)


def of_list(code, default, members):
    return description(code, 0x5005, default, bytes([LIST_FORM]) + len(members).to_bytes(2, "little") + b"".join(members))


def asked(number, data, code, chosen, room=ROOM):
    return f"panel {CRATE} {number} {hexed(data)} {code} {hexed(chosen)} {room}"


def short_ranges():
    """From the lowest to the highest, the other way round, and within: each with steps of either sign, at the ends and beside them."""
    for code in panel.RANGED:
        lowest, highest = ends(code)
        bounds = [(lowest, highest), (highest, lowest), (lowest, lowest), (highest, highest), (lowest + 1, highest - 1), (0, highest), (5, 100)]
        for (least, most), step in itertools.product(bounds, (highest, 1, 0, -1, lowest, 7)):
            for chosen in (lowest, highest, least, most, least + 1, most - 1, least + step, least + 7, 0, -1):
                yield asked(7, of_range(code, least, most, step), code, spelled(code, chosen))


def short_orders():
    """Each refusal with all that come after it in the order."""
    whole = of_range(2, 0, 100, 1)
    for data, code, chosen, room in itertools.product((whole, whole + b"\x00", whole[:-1], whole[:3], b""), (2, 1, 0, 0xFFFF), (b"\x07", b"\xff", b"", b"\x07\x00"), (29, 28, 16, 0)):
        yield asked(7, data, code, chosen, room)
    for number in STATES:
        yield asked(number, whole, 2, b"\x07", 29)
    for form, code in itertools.product((*NO_FORMS, RANGE_FORM, LIST_FORM), (0, 9, 10, 11, 0x4002, 0xFFFF)):
        default = {0xFFFF: b"\x00", 0x4002: bytes(4), 9: bytes(16), 10: bytes(16)}.get(code, b"")
        rest = {RANGE_FORM: 3 * default, LIST_FORM: b"\x01\x00" + default}.get(form, b"")
        yield asked(7, description(code, 0x5001, default, bytes([form]) + rest), code, default)


def short_strings():
    """Every spelling of the empty string and of two others, against every spelling as a member."""
    spellings = [b"\x00", b"\x01\x00\x00", b"\x01\x05\x00", b"\x01\x00\xd8", b"\x02\x41\x00\x00\x00", b"\x02\x41\x00\x41\x00", b"\x02\x42\x00\x00\x00", b"\x02\x00\x00\x00\x00"]
    for member, chosen in itertools.product(spellings, repeat=2):
        yield asked(7, of_list(values.STRING, b"\x00", [b"\x02\x43\x00\x00\x00", member]), values.STRING, chosen)
    for chosen in (*spellings, b"\x02\x00\xd8\x00\x00", b"\x02\x41\x00\x00", b"\x00\x00"):
        yield asked(7, description(values.STRING, 0xD001, b"\x00", b"\x00"), values.STRING, chosen)
        yield asked(7, of_list(values.STRING, b"\x00", []), values.STRING, chosen)


def in_book(line):
    """The same question by the book's layout, whose description has no `IsEnable`, the sixth byte."""
    question, _, number, data, *rest = line.split(" ")
    return " ".join([question, BOOK, number, data[:10] + data[12:], *rest])


def short_panel(rng):
    for line in itertools.chain(short_orders(), short_strings(), short_ranges()):
        yield line
        yield in_book(line)


def near(rng, code, least, most, step):
    """A number on a step, beside one, or anywhere."""
    lowest, highest = ends(code)
    chance = rng.random()
    if chance < 0.5 and step > 0:
        return least + step * rng.randrange(max(1, (most - least) // step + 1))
    if chance < 0.75:
        return rng.choice([least, most, least - 1, most + 1, least + step, most - step])
    return rng.randint(lowest, highest)


def random_range(rng):
    code = rng.choice(list(panel.RANGED))
    lowest, highest = ends(code)
    least, most = (rng.choice([lowest, highest, 0, 1, rng.randint(lowest, highest)]) for _ in range(2))
    if least > most and rng.random() < 0.7:
        least, most = most, least
    step = rng.choice([1, 1, 2, 3, 10, 0, -1, lowest, highest, rng.randint(lowest, highest)])
    return of_range(code, least, most, step), code, spelled(code, near(rng, code, least, most, step))


def other_spelling(rng, code, data):
    """The same value, for a string with another last unit or another way to be empty."""
    if code != values.STRING:
        return data
    return string(rng, list(values.units_of(data[1:-2])))


def random_list(rng):
    code = type_code(rng)
    members = [value_bytes(rng, code) for _ in range(rng.randrange(5))]
    chosen = value_bytes(rng, code)
    if members and rng.random() < 0.7:
        chosen = other_spelling(rng, code, rng.choice(members))
    return of_list(code, value_bytes(rng, code), members), code, chosen


def random_no_form(rng):
    code = type_code(rng)
    return description(code, rng.getrandbits(16), value_bytes(rng, code), bytes([rng.choice(NO_FORMS)])), code, value_bytes(rng, code)


def one_panel(rng):
    number = state(rng)
    data, code, chosen = rng.choice([random_range, random_range, random_list, random_list, random_no_form])(rng)
    if rng.random() < 0.1:
        data = maybe_damaged(rng, data)
    if rng.random() < 0.1:
        chosen = maybe_damaged(rng, chosen)
    if rng.random() < 0.05:
        code = type_code(rng)
    room = room_for(rng, lambda: panel.set_value(CRATE, number, data, code, chosen).output)
    line = asked(number, data, code, chosen, room)
    return line if rng.random() < 0.5 else in_book(line)


PANEL_CASES = {"panel": Cases(short_panel, one_panel)}
