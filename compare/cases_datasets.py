"""Cases for the datasets, their tidy writers, lists and the newer value."""

import itertools

from compare.bits import (EDGES_64, TYPES, Cases, damaged, hexed, maybe_damaged, room_for, row_bytes, some_bytes,
                          type_code, value_bytes)
from compare.cases_values import edge_runs
from model import datasets, values

MOST_LISTED = 65_535
# A list of so many strings fills a line of 1,200,000 characters nearly.
LONG_LIST = 60_000


def every_prefix(data):
    return (data[:length] for length in range(len(data) + 1))


def every_byte(data, key_bytes=(0x00, 0x01, 0x02, 0xD8, 0xFF)):
    for at, byte in itertools.product(range(len(data)), key_bytes):
        yield data[:at] + bytes([byte]) + data[at + 1:]


def zero_of(code):
    if code in values.WIDTHS:
        return 0
    return values.Text() if code == values.STRING else []


def smallest(types):
    return b"".join(values.write_value(code, zero_of(code)) for code in types)


def run_rows(types):
    """The smallest, whose first string is a run of units, whole or broken."""
    first = types.index(values.STRING)
    return (smallest(types[:first]) + data + smallest(types[first + 1:]) for data in edge_runs())


def short_rows(rng, types):
    """The smallest, cut at every byte; then good ones, cut at every byte, each byte replaced by key values."""
    yield from every_prefix(smallest(types) + b"\xee")
    for _ in range(12):
        good = row_bytes(rng, types)
        yield from every_prefix(good[:400])
        yield from every_byte(good[:160])


def one_row(rng, types):
    return maybe_damaged(rng, row_bytes(rng, types)) + some_bytes(rng, 2)


def no_rows(types):
    return ()


def row(question, types, more=no_rows):
    """A question that reads a row of fields; `more(types)` are rows that only it has."""
    def ask(data):
        return f"{question} {hexed(data)}"
    return Cases(lambda rng: map(ask, itertools.chain(short_rows(rng, types), more(types))),
                 lambda rng: ask(one_row(rng, types)))


def tidy_row(question, types):
    def ask(rng, data):
        return f"{question} {hexed(data)} {room_for(rng, lambda: datasets.tidy_row(types, data))}"
    return Cases(lambda rng: (ask(rng, data) for data in short_rows(rng, types)),
                 lambda rng: ask(rng, one_row(rng, types)))


def property_bytes(rng, layout, code=None, form=None):
    """A whole description by a layout, of a type, with a form."""
    code = type_code(rng) if code is None else code
    form = rng.choice([0, 1, 1, 2, 2, 2, 3, 255]) if form is None else form
    head = rng.randbytes(2) + code.to_bytes(2, "little") + rng.randbytes(2 if layout == datasets.CRATE else 1)
    head += row_bytes(rng, [code] * 2) + bytes([form])
    if form == datasets.RANGE_FORM:
        return head + row_bytes(rng, [code] * 3)
    if form == datasets.LIST_FORM:
        count = rng.randrange(6)
        return head + count.to_bytes(2, "little") + row_bytes(rng, [code] * count)
    return head


def undefined_list(count):
    """N13 with a count of one's own: a list of UNDEF takes no bytes."""
    return bytes.fromhex("01500000000002") + count.to_bytes(2, "little")


def string_list(count):
    """A list of empty strings."""
    return bytes.fromhex("05d0ffff0101000002") + count.to_bytes(2, "little") + bytes(count)


def long_lists():
    """The longest lists: each makes a long answer, so that there are few of them."""
    yield undefined_list(MOST_LISTED)
    yield string_list(LONG_LIST)
    yield string_list(LONG_LIST)[:-1]


def short_descriptions(rng):
    """The numbered examples and one that fits both layouts, every form byte, lists around 256, every type and form cut at
    every byte."""
    yield bytes.fromhex("015002000001643201006401")
    yield bytes.fromhex("05d0ffff01010000020200000241000000")
    yield bytes.fromhex("015002000001640000")
    for count in (0, 1, 2, 255, 256, 257):
        yield from (undefined_list(count), string_list(count), string_list(count)[:-1])
    for form in range(256):
        yield bytes.fromhex("0150020000016432") + bytes([form]) + b"\x01\x00\x07\x08"
    for layout, code, form in itertools.product(datasets.LAYOUTS, [0, *TYPES], (0, 1, 2)):
        yield from every_prefix(property_bytes(rng, layout, code, form)[:120])


def one_description(rng, layout):
    """Mostly by the layout that is named."""
    made_by = layout if rng.random() < 0.8 else rng.choice(datasets.LAYOUTS)
    return maybe_damaged(rng, property_bytes(rng, made_by)) + some_bytes(rng, 2)


def by_both(ask, rng, descriptions):
    """Each of them by each layout."""
    for data, layout in itertools.product(descriptions, datasets.LAYOUTS):
        yield ask(rng, layout, data)


def by_either(ask, rng):
    layout = rng.choice(datasets.LAYOUTS)
    return ask(rng, layout, one_description(rng, layout))


def on_description(ask):
    """A question about a description: `ask(rng, layout, data)` makes its line."""
    return Cases(lambda rng: by_both(ask, rng, itertools.chain(long_lists(), short_descriptions(rng))),
                 lambda rng: by_either(ask, rng))


def ask_property(rng, layout, data):
    return f"property {layout} {hexed(data)}"


def ask_tidy_property(rng, layout, data):
    return f"tidy-property {layout} {hexed(data)} {room_for(rng, lambda: datasets.tidy_property(layout, data))}"


def ask_list(rng, layout, data):
    return f"list {layout} {hexed(data)}"


def ask_nth(rng, layout, data):
    return f"nth {layout} {rng.choice([0, 0, 1, 2, rng.randrange(7)])} {hexed(data)}"


def short_nth(rng):
    for index, count in itertools.product((0, 1, MOST_LISTED - 1, MOST_LISTED, *EDGES_64), (0, MOST_LISTED)):
        yield from (f"nth {layout} {index} {hexed(undefined_list(count))}" for layout in datasets.LAYOUTS)
    yield from by_both(ask_nth, rng, short_descriptions(rng))


def one_nth(rng):
    return by_either(ask_nth, rng)


def short_step(rng):
    for refusal, left in itertools.product((0, 1, 2, 12, 255), (0, 1, 2, MOST_LISTED)):
        yield f"step 3412 4 0 {left} {refusal}"
        yield f"step - 0 {EDGES_64[-1]} {left} {refusal}"


def one_step(rng):
    layout = rng.choice(datasets.LAYOUTS)
    data = maybe_damaged(rng, property_bytes(rng, layout))
    return f"step {hexed(data)} {step_numbers(rng, layout, data)}"


def step_numbers(rng, layout, data):
    """Mostly the numbers of the dataset's own list, at its start or at a value; else any."""
    here = datasets.list_of(layout, data)
    for _ in range(rng.randrange(3)):
        stepped = datasets.step(data, here)
        here = stepped[1] if stepped else here
    chance = rng.random()
    place = here.place if chance < 0.6 else rng.randrange(len(data) + 3)
    place = rng.choice(EDGES_64) if chance > 0.97 else place
    code = here.type if rng.random() < 0.7 else type_code(rng)
    left = here.left if rng.random() < 0.5 else rng.choice([0, 1, 2, 3, MOST_LISTED])
    refusal = rng.randrange(256) if rng.random() < 0.05 else 0
    return f"{code} {place} {left} {refusal}"


def short_newer(rng):
    """Each type, with a payload that is one value, cut at every byte, and with a byte after it."""
    for layout, code in itertools.product(datasets.LAYOUTS, [0, *TYPES]):
        description, good = property_bytes(rng, layout, code, 0), value_bytes(rng, code)
        for payload in itertools.chain(every_prefix(good), [good + b"\x00"]):
            yield from (f"newer {named} {hexed(description)} {hexed(payload)}" for named in datasets.LAYOUTS)


def one_newer(rng):
    layout, code = rng.choice(datasets.LAYOUTS), type_code(rng)
    description, payload = property_bytes(rng, layout, code), value_bytes(rng, code)
    if rng.random() < 0.4:
        payload = damaged(rng, payload)
    if rng.random() < 0.3:
        description = damaged(rng, description)
    return f"newer {layout} {hexed(description)} {hexed(payload)}"


DATASET_CASES = {
    "device": row("device", datasets.DEVICE, run_rows),
    "object": row("object", datasets.OBJECT, run_rows),
    "storage": row("storage", datasets.STORAGE),
    "property": on_description(ask_property),
    "tidy-device": tidy_row("tidy-device", datasets.DEVICE),
    "tidy-object": tidy_row("tidy-object", datasets.OBJECT),
    "tidy-storage": tidy_row("tidy-storage", datasets.STORAGE),
    "tidy-property": on_description(ask_tidy_property),
    "nth": Cases(short_nth, one_nth),
    "list": on_description(ask_list),
    "step": Cases(short_step, one_step),
    "newer": Cases(short_newer, one_newer),
}
