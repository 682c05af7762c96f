"""Cases for settings: rows of both kinds, cut and damaged, every order of refusals, rows around 256 entries."""

import itertools

from compare.bits import EDGES_32, Cases, hexed, listed, maybe_damaged, paired_units, room_for, string, type_code, unit_count, value_bytes, wild_units
from model import settings, values
from model.refusals import Refused

EDITIONS = [1, 2]
KINDS = [0, 15, 16, 17, 18, 272, 273, 4096, 0xFFFF]
# Few, so that keys meet: vendors and properties that differ in one byte, and serials that are the beginning of each other.
VENDORS = [6, 7, 6 << 8, 0xFFFFFFFF]
PROPERTIES = [0x5001, 0x5002, 0x5101]
SERIALS = [(), (0x41,), (0x41, 0x42), (0x42,), (0x41, 0)]
VALUES = [(2, b"\x07"), (4, b"\x07\x00"), (0, b""), (values.STRING, b"\x00"), (values.STRING, b"\x02\x41\x00\x00\x00"), (0x4002, b"\x02\x00\x00\x00\x05\x06")]


def entry_bytes(kind, rest, length=None):
    length = settings.ENTRY_HEADER + len(rest) if length is None else length
    return length.to_bytes(4, "little") + kind.to_bytes(2, "little") + rest


def pair_bytes(vendor, code):
    return vendor.to_bytes(4, "little") + code.to_bytes(2, "little")


def for_any(vendor, code, value_type, spelled):
    return entry_bytes(settings.FOR_ANY, pair_bytes(vendor, code) + value_type.to_bytes(2, "little") + spelled)


def for_one(vendor, code, serial, value_type, spelled):
    """The serial by its bytes."""
    return entry_bytes(settings.FOR_ONE, pair_bytes(vendor, code) + serial + value_type.to_bytes(2, "little") + spelled)


def numbered(count):
    """So many entries of UNDEF, each with a key of its own; every third is one serial's."""
    rows = (for_one(6, place, b"\x00", 0, b"") if place % 3 == 2 else for_any(6, place, 0, b"") for place in range(count))
    return b"".join(rows)


def two_kinds():
    """One of each kind, of the same pair, with values whose bytes differ in length."""
    return for_any(6, 0x5001, 2, b"\x07") + for_one(6, 0x5001, values.write_string((0x41,)), values.STRING, values.write_string((0x42,)))


def short_entries():
    """Both kinds with every length and kind around their limits; strings spelled in every way; bytes too many; each cut at every byte."""
    good = for_one(6, 0x5001, values.write_string((0x41,)), 2, b"\x09")
    for length, kind in itertools.product([0, 5, 6, 7, 20, *EDGES_32], KINDS):
        yield from (entry_bytes(kind, good[6:], length)[:cut] for cut in (0, 3, 4, 5, 6, 7, 20))
    for spelled in (b"\x00", b"\x01\x00\x00", b"\x01\x41\x00", b"\x02\x41\x00\x00\x00", b"\x02\x41\x00\x01\x00", b"\x02\x00\xd8\x00\x00", b"\x02\x00\xd8\x01\x00", b"\x02\x41\x00"):
        for more in (b"", b"\x00"):
            yield for_any(6, 0x5001, values.STRING, spelled + more)
            yield for_one(6, 0x5001, spelled, 2, b"\x09" + more)
            yield for_one(6, 0x5001, spelled, values.STRING, spelled + more)
    for one in (good, *(for_any(6, 0x5001, value_type, spelled) for value_type, spelled in VALUES)):
        yield from (one[:cut] for cut in range(len(one) + 1))
        yield from (entry_bytes(one[4], one[6:cut]) for cut in range(6, len(one)))
        yield entry_bytes(one[4], one[6:] + b"\x00")


def short_rows():
    """None; the shortest entries alone and behind a good one; a key that stands twice, and keys that are not the same; 255 to 258 entries."""
    yield b""
    whole = two_kinds()
    yield from (whole[:cut] for cut in range(len(whole) + 1))
    for one in short_entries():
        yield from (one, for_any(6, 0x5002, 2, b"\x07") + one)
    spelled = [for_any(6, 0x5001, 2, b"\x07"), for_any(6, 0x5002, 2, b"\x07"), for_any(7, 0x5001, 2, b"\x07")]
    spelled += [for_one(6, 0x5001, values.write_string(serial), 2, b"\x09") for serial in SERIALS]
    yield from (first + second for first, second in itertools.product(spelled, repeat=2))
    yield from (first + second + first for first, second in itertools.product(spelled[2:5], repeat=2))
    for count in (255, 256, 257, 258):
        yield numbered(count)
    yield from (numbered(256) + one for one in (for_any(6, 0, 0, b""), for_any(7, 0, 0, b""), for_any(7, 0, values.STRING, b"\x01\x00\x00"), b"\x00"))


def short_settings(rng):
    return (f"settings {edition} {hexed(row)}" for row in short_rows() for edition in EDITIONS)


def asked_find(edition, row, vendor, code, serial):
    return f"settings-find {edition} {hexed(row)} {vendor} {code} {listed(serial)}"


def short_find(rng):
    """Each key of rows of both kinds in either order, and keys that are not held; serials that no entry can have; refused rows."""
    any_one = [for_any(6, 0x5001, 2, b"\x07"), for_one(6, 0x5001, values.write_string((0x41,)), 2, b"\x09")]
    for row, edition in itertools.product((b"".join(any_one), b"".join(any_one[::-1]), *any_one, b"", any_one[1] + b"\x00"), EDITIONS):
        for vendor, code, serial in itertools.product((6, 7), (0x5001, 0x5002), (*SERIALS, (0xD800,), (0x41,) * 254, (0x41,) * 255, (0x41,) * 300)):
            yield asked_find(edition, row, vendor, code, serial)
    longest = for_one(6, 1, values.write_string((0x41,) * 254), 0, b"") + for_one(6, 1, values.write_string((0x41,) * 253), 0, b"")
    yield from (asked_find(2, longest, 6, 1, (0x41,) * count) for count in (0, 252, 253, 254, 255))
    for place in (0, 1, 2, 128, 254, 255, 256):
        yield from (asked_find(edition, numbered(256), 6, place, ()) for edition in EDITIONS)
    yield from (asked_find(2, row, 6, 0x5001, ()) for row in short_rows())


def stored_case(rng, edition, row, entry):
    return f"settings-store {edition} {hexed(row)} {hexed(entry)} {room_for(rng, lambda: settings.store(edition, row, entry))}"


def exact_rooms(edition, row, entry):
    need = len(settings.store(edition, row, entry))
    return (f"settings-store {edition} {hexed(row)} {hexed(entry)} {room}" for room in (0, need - 1, need, need + 1))


def short_store(rng):
    """Into none, in place of the first, the middle, the last, and as the last; every refused entry; every refused row before it; full rows."""
    middle = [for_any(6, code, 4, b"\x07\x00") for code in (1, 2, 3)]
    for code, (value_type, spelled) in itertools.product((1, 2, 3, 4), VALUES):
        yield from exact_rooms(1, b"".join(middle), for_any(6, code, value_type, spelled))
    for row, entry in itertools.product((b"", two_kinds(), two_kinds()[:-1]), short_entries()):
        yield from (stored_case(rng, edition, row, entry + more) for edition in EDITIONS for more in (b"", b"\x00"))
    for row in short_rows():
        yield stored_case(rng, 2, row, for_any(6, 0x5001, 2, b"\x01"))
    for count, edition in itertools.product((255, 256, 257), EDITIONS):
        for entry in (for_any(6, 0, 2, b"\x01"), for_one(6, 254, b"\x00", 2, b"\x01"), for_any(7, 0, 2, b"\x01"), for_any(7, 0, values.STRING, b"\x01\x00\x00"), b""):
            yield stored_case(rng, edition, numbered(count), entry)


def asked_write(rng, words):
    vendor, code, value_type, spelled, own, serial = words
    asked = f"settings-write {vendor} {code} {value_type} {hexed(spelled)} {'own' if own else 'any'} {listed(serial)}"
    return f"{asked} {room_for(rng, lambda: settings.write_entry(*words))}"


def short_write(rng):
    """Every spelling of a value, whole, cut and with a byte too many; every serial, those too that no entry can have, of both kinds; exact rooms."""
    spelled = [*VALUES, (values.STRING, b"\x01\x00\x00"), (values.STRING, b"\x01\x41\x00"), (values.STRING, b"\x02\x41\x00\x01\x00"), (values.STRING, b"\x02\x00\xd8\x00\x00"), (0x4004, b"\x01\x00\x00\x00\x05")]
    for (value_type, whole), serial, own in itertools.product(spelled, (*SERIALS, (0xD800,), (0x41,) * 254, (0x41,) * 255, (0xD800,) * 300), (False, True)):
        for value in (whole, whole[:-1], whole + b"\x00"):
            yield asked_write(rng, (6, 0x5001, value_type, value, own, serial))
    for vendor, code, own in itertools.product((0, *VENDORS), (0, 0xFFFF), (False, True)):
        need = len(settings.write_entry(vendor, code, 2, b"\x07", own, (0x41,)))
        yield from (f"settings-write {vendor} {code} 2 07 {'own' if own else 'any'} 65 {room}" for room in (0, need - 1, need, need + 1))


def removed_case(rng, words):
    edition, row, vendor, code, own, serial = words
    asked = f"settings-remove {edition} {hexed(row)} {vendor} {code} {'own' if own else 'any'} {listed(serial)}"
    return f"{asked} {room_for(rng, lambda: settings.remove(*words))}"


def short_remove(rng):
    """The first, the middle, the last, the only one and none; of both kinds in either order; serials that no entry can have; refused rows; full ones."""
    both = [for_any(6, 0x5001, 2, b"\x07"), for_one(6, 0x5001, values.write_string((0x41,)), 2, b"\x09"), for_any(6, 0x5002, 4, b"\x07\x00")]
    rows = [b"".join(order) for count in range(4) for order in itertools.permutations(both, count)]
    for row, edition, own, serial in itertools.product((*rows, both[1] + b"\x00"), EDITIONS, (False, True), ((), (0x41,), (0xD800,), (0x41,) * 255)):
        yield from (removed_case(rng, (edition, row, vendor, code, own, serial)) for vendor, code in ((6, 0x5001), (6, 0x5002), (7, 0x5001)))
    for count, place in itertools.product((255, 256, 257), (0, 2, 254, 255)):
        yield from (removed_case(rng, (2, numbered(count), 6, place, own, ())) for own in (False, True))
    yield from (removed_case(rng, (2, row, 6, 0x5001, False, ())) for row in short_rows())


def random_serial(rng):
    """Mostly one of the few, tidy; at times any string, spelled anyhow."""
    if rng.random() < 0.9:
        return values.write_string(rng.choice(SERIALS))
    return string(rng, (wild_units if rng.random() < 0.2 else paired_units)(rng, unit_count(rng)))


def random_value(rng):
    """Strings mostly tidy, so that most rows are rows."""
    code = type_code(rng)
    if code == values.STRING and rng.random() < 0.95:
        return code, values.write_string(paired_units(rng, unit_count(rng)))
    return code, value_bytes(rng, code)


def random_entry(rng, edition):
    vendor, code, value = rng.choice(VENDORS), rng.choice(PROPERTIES), random_value(rng)
    if edition == 1 and rng.random() < 0.97 or rng.random() < 0.4:
        return for_any(vendor, code, *value)
    return for_one(vendor, code, random_serial(rng), *value)


def random_row(rng, edition):
    """Each key mostly once."""
    entries = {}
    for _ in range(rng.randrange(8)):
        one = random_entry(rng, edition)
        try:
            key = settings.read_entry(2, one, 0).key
        except Refused:
            key = one if rng.random() < 0.3 else None
        entries[key if rng.random() < 0.98 else one] = one
    row = b"".join(one for key, one in entries.items() if key is not None)
    return maybe_damaged(rng, row) if rng.random() < 0.2 else row


def one_settings(rng):
    edition = rng.choice(EDITIONS)
    return f"settings {edition} {hexed(random_row(rng, edition))}"


def one_find(rng):
    edition = rng.choice([1, 2, 2])
    serial = asked_serial(rng)
    return asked_find(edition, random_row(rng, edition), rng.choice(VENDORS), rng.choice(PROPERTIES), serial)


def one_store(rng):
    edition = rng.choice([1, 2, 2])
    entry = random_entry(rng, edition)
    return stored_case(rng, edition, random_row(rng, edition), maybe_damaged(rng, entry) if rng.random() < 0.2 else entry)


def asked_serial(rng):
    return rng.choice(SERIALS) if rng.random() < 0.9 else wild_units(rng, rng.randrange(5))


def one_write(rng):
    value_type, spelled = random_value(rng)
    value = maybe_damaged(rng, spelled) if rng.random() < 0.2 else spelled
    return asked_write(rng, (rng.choice(VENDORS), rng.choice(PROPERTIES), value_type, value, rng.random() < 0.7, asked_serial(rng)))


def one_remove(rng):
    edition = rng.choice([1, 2, 2])
    return removed_case(rng, (edition, random_row(rng, edition), rng.choice(VENDORS), rng.choice(PROPERTIES), rng.random() < 0.6, asked_serial(rng)))


SETTINGS_CASES = {
    "settings": Cases(short_settings, one_settings),
    "settings-find": Cases(short_find, one_find),
    "settings-store": Cases(short_store, one_store),
    "settings-write": Cases(short_write, one_write),
    "settings-remove": Cases(short_remove, one_remove),
}
