"""Answers the questions of `ask` (docs/ASK.md), one a line, from this model.

    python3 -m model.ask < questions > answers
"""

import binascii
import itertools
import re
import sys

from model import containers, datasets, listing, mending, names, network, panel, recording, session, settings, tree, values
from model.refusals import ROOM, Refused, refuse_if

LONGEST_LINE = 1_200_000
MOST_ROOM = 1 << 20
LONGEST_LIST = 4096
FILLING = 0xA5

NUMBER = re.compile(r"0x[0-9a-fA-F]+|[0-9]+")


class Malformed(Exception):
    """The question is not one of ours; its answer is `?`."""


# Reading the words of a question.

def number(word, bits):
    if not NUMBER.fullmatch(word):
        raise Malformed
    digits, base = (word[2:], 16) if word.startswith("0x") else (word, 10)
    digits = digits.lstrip("0") or "0"
    if len(digits) > 20 or int(digits, base) >> bits:
        raise Malformed
    return int(digits, base)


def u8(word):
    return number(word, 8)


def u16(word):
    return number(word, 16)


def u32(word):
    return number(word, 32)


def u64(word):
    return number(word, 64)


def room(word):
    size = u64(word)
    if size > MOST_ROOM:
        raise Malformed
    return size


def report(word):
    size = u64(word)
    if size > LONGEST_LIST:
        raise Malformed
    return size


def hex_bytes(word):
    if word == "-":
        return b""
    if word == "":
        raise Malformed
    try:
        return binascii.unhexlify(word)
    except ValueError:
        raise Malformed from None


def times(word):
    count = u64(word)
    if not 1 <= count <= LONGEST_LIST:
        raise Malformed
    return count


def numbers(word, each):
    """Numbers joined by commas, each alone or as N*TIMES."""
    if word == "-":
        return []
    row = []
    for one in word.split(","):
        number, star, count = one.partition("*")
        row += [each(number)] * (times(count) if star else 1)
        if len(row) > LONGEST_LIST:
            raise Malformed
    return row


def u8s(word):
    return numbers(word, u8)


def u16s(word):
    return numbers(word, u16)


def u32s(word):
    return numbers(word, u32)


def layout(word):
    if word not in datasets.LAYOUTS:
        raise Malformed
    return word


def direction(word):
    if word not in network.DIRECTIONS:
        raise Malformed
    return word


def edition(word):
    which = u8(word)
    if which not in settings.KINDS:
        raise Malformed
    return which


def is_own(word):
    """A key's kind: for a camera of one serial, or for any."""
    if word not in ("any", "own"):
        raise Malformed
    return word == "own"


def word_of(word):
    return word


def integer(code, word):
    """A value of an integer type or of UNDEF, as `write-value` takes it."""
    if code not in values.WIDTHS:
        return undefined(code, word)
    if values.WIDTHS[code] == 16:
        halves = word.split(":")
        if len(halves) != 2:
            raise Malformed
        return u64(halves[0]), u64(halves[1])
    return signed(word, 8 * values.WIDTHS[code]) if code % 2 else number(word, 8 * values.WIDTHS[code])


def undefined(code, word):
    if word != "undef" or code == values.STRING or values.item_code(code) is not None:
        raise Malformed
    return values.UNDEF


def signed(word, bits):
    value = -number(word[1:], bits) if word.startswith("-") else number(word, bits)
    if not -(1 << bits - 1) <= value < 1 << bits - 1:
        raise Malformed
    return value


# Printing the words of an answer.

def show(value):
    if value is values.UNDEF:
        return "undef"
    if isinstance(value, values.Text):
        return "s<" + ".".join(f"{unit:04x}" for unit in value) + ">"
    if isinstance(value, list):
        return "[" + ",".join(show(item) for item in value) + "]"
    if isinstance(value, tuple):
        return f"{value[0]}:{value[1]}"
    return str(value)


def show_all(row):
    return " ".join(show(value) for value in row)


def show_bytes(data):
    return data.hex() or "-"


def show_list(row):
    return ",".join(map(str, row)) or "-"


def filled(row, bits):
    """A lent list of 1,024 places after a call: what was written in front, the filling behind it."""
    return show_runs(row + [int.from_bytes(bytes([FILLING]) * (bits // 8), "little")] * (tree.PLACES - len(row)))


def show_runs(row):
    """As a list, but two or more equal neighbours as N*TIMES."""
    runs = ((number, len(list(equal))) for number, equal in itertools.groupby(row))
    return show_list(str(number) if times == 1 else f"{number}*{times}" for number, times in runs)


def ok(*words):
    return " ".join(["ok", *map(str, words)])


def laid_out(size, written):
    """The whole output after a writer's call: what was written in front, the filling behind it."""
    return show_bytes(written + bytes([FILLING]) * (size - len(written)))


def writing(size, make):
    """A writer's answer. `make` gives the bytes and the words that stand before their count."""
    try:
        before, written = make()
        refuse_if(len(written) > size, ROOM)
    except Refused as refused:
        return f"no {refused} {laid_out(size, b'')}"
    return ok(*before, len(written), laid_out(size, written))


def writing_bytes(size, make, *words):
    return writing(size, lambda: ((), make(*words)))


def making(size, make, *words):
    """A command made: its number and the session's next state come before the count."""
    def made():
        one = make(*words)
        return (one.number, one.next_state), one.output
    return writing(size, made)


# The questions, in the order of docs/ASK.md.

def name(look_up):
    def answer(code):
        found = look_up(code)
        return "none" if found is None else ok(found)
    return answer


def value(code, at, data):
    read, after = values.read_value(code, data, at)
    return ok(show(read), after)


def end(at, data):
    values.expect_end(data, at)
    return ok()


def unit(index, at, data):
    return ok(values.unit(index, data, at))


def item(code, index, at, data):
    return ok(show(values.item(code, index, data, at)))


def lent(most, width, make):
    """Numbers of so many bytes at the front of a list that was filled before, which is shown whole."""
    filling = int.from_bytes(bytes([FILLING]) * width, "little")
    try:
        found = make()
        refuse_if(len(found) > most, ROOM)
    except Refused as refused:
        return f"no {refused} {show_runs(most * [filling])}"
    return ok(len(found), show_runs([*found, *(most - len(found)) * [filling]]))


def all_numbers(code, at, count, data, most):
    return lent(most, 8, lambda: values.words(code, count, data, at))


def all_units(at, data, most):
    return lent(most, 2, lambda: values.read_string(data, at)[0])


def utf8(at, data, size):
    return writing_bytes(size, lambda: values.utf8(values.read_string(data, at)[0]))


def write_value(code, word, size):
    return writing_bytes(size, values.write_value, code, integer(code, word))


def write_string(units, size):
    return writing_bytes(size, values.write_string, units)


def write_array(code, items, size):
    return writing_bytes(size, values.write_array, code, items)


def tidy_value(code, data, size):
    return writing_bytes(size, values.tidy_value, code, data)


def row(types):
    def answer(data):
        read, after = datasets.read_row(types, data)
        return ok(after, show_all(read))
    return answer


def tidy_row(types):
    return lambda data, size: writing_bytes(size, datasets.tidy_row, types, data)


def device_property(named, data):
    read = datasets.read_property(named, data)
    enable = "-" if read.enable is None else read.enable
    head = [read.length, read.code, read.type, read.getset, enable, show(read.default), show(read.current)]
    if read.form == datasets.RANGE_FORM:
        return ok(*head, "range", show_all(read.values))
    if read.form == datasets.LIST_FORM:
        return ok(*head, "list", len(read.values), *map(show, read.values))
    return ok(*head, "none")


def tidy_property(named, data, size):
    return writing_bytes(size, datasets.tidy_property, named, data)


def nth(named, index, data):
    found, start, length = datasets.nth(named, index, data)
    return ok(show(found), start, length)


def whole_list(named, data):
    here, stepped = datasets.all_steps(named, data)
    told = [here.refusal, here.place] if here.refusal else [0]
    return ok(*told, len(stepped), *map(show, stepped))


def step(data, code, place, left, refusal):
    stepped = datasets.step(data, datasets.ListPlace(code, place, left, refusal))
    if stepped is None:
        return "end"
    found, here = stepped
    return ok(show(found), here.place, here.left)


def newer(named, description, payload):
    part = datasets.newer(named, description, payload)
    source = description if part.of == "description" else payload
    return ok(part.of, part.start, part.length, show_bytes(source[part.start:part.start + part.length]))


def header(data):
    return ok(*containers.read_header(data))


def container(data):
    read, start = containers.read_container(data)
    return ok(read.kind, read.code, read.number, start, read.payload_length)


def write_container(kind, code, tid, payload, size):
    return writing_bytes(size, containers.write_container, kind, code, tid, payload)


def to_network(way, data, size):
    return writing_bytes(size, network.to_network, way, data)


def from_network(data, size):
    return writing_bytes(size, network.from_network, data)


def packet(at, data):
    """The kind and its fields in their order, then where the bytes behind them are, if it can have any, and the place after it."""
    read = network.read_packet(data, at)
    behind = [] if read.kind == network.START_DATA else [read.start, read.after - read.start]
    return ok(read.kind, *read.fields.values(), *behind, read.after)


def command(state, code, parameters, size):
    return making(size, session.command, state, code, parameters)


def command_data(state, code, parameters, payload, size):
    return making(size, session.command_with_data, state, code, parameters, payload)


def set_value(named, state, description, code, chosen, size):
    return making(size, panel.set_value, named, state, description, code, chosen)


def call(called, state, storage, wanted, handle, size):
    if called not in session.CALLS:
        raise Malformed
    return making(size, session.call, called, state, storage, wanted, handle)


def find_answer(tid, data):
    found = session.find_answer(tid, data)
    return ok("data" if isinstance(found, session.DataFound) else "response", *found)


def find_response(tid, data):
    return ok(*session.find_response(tid, data))


def needed(tid, data):
    return ok(session.needed(tid, data))


def handles(payload):
    return ok(show_list(session.handles(payload)))


def object_count(payload):
    return ok(session.object_count(payload))


def info(read):
    return lambda payload: ok(show_all(read(payload)))


def path(*words):
    *table, place, size = words
    return writing_bytes(size, tree.path, tree.Table(*table), place)


def parted(words, keeps_links):
    """The words of a table, its links if it keeps them, and those that follow."""
    table, rest = tree.Table(*words[:len(TABLE_WORDS)]), words[len(TABLE_WORDS):]
    return (table, tree.Links(*rest[:2]), rest[2:]) if keeps_links else (table, None, rest)


def check(table, links):
    if links:
        tree.check_links(table, links)


def show_links(links):
    return list(map(show_runs, links or ()))


def listing_places(order, keeps_links=False):
    def answer(*words):
        table, links, _ = parted(words, keeps_links)
        check(table, links)
        return ok(show_list(order(table)))
    return answer


def listing_paths(order, keeps_links=False):
    def answer(*words):
        table, links, (size,) = parted(words, keeps_links)
        try:
            check(table, links)
            joined, ends = tree.paths(table, size, order)
        except Refused as refused:
            return f"no {refused} {laid_out(size, b'')}"
        return ok(len(joined), laid_out(size, joined), filled(ends, 32))
    return answer


def link(*words):
    try:
        return ok(*show_links(tree.link(tree.Table(*words))))
    except Refused as refused:
        return " ".join([f"no {refused}", filled([], 16), filled([], 16)])


def show_table(table, new_places):
    """The lent lists of a table that was changed, the names' bytes, and the list of new places."""
    return [*(show_runs(getattr(table, row)) for row in tree.LISTS), show_bytes(table.names), filled(new_places, 16)]


def delete(table, place):
    after = table._replace(marks=tree.delete(table, place))
    return after, show_marks(after)


def show_marks(table):
    return [show_runs(table.marks)]


def collect(table):
    made = tree.collect(table)
    return made.table, [made.table.count, *show_table(made.table, made.new_places)]


def add(table, parent, handle, name):
    made = tree.add(table, parent, handle, name)
    return made.table, [made.place, *show_table(made.table, made.new_places)]


def show_unchanged(table):
    return show_table(table, [])


def changing(change, show_refused, keeps_links=False):
    """A table changed, or as it was; one that keeps its links has them last. `change` gives the table after and the words that tell of it."""
    def answer(*words):
        table, links, more = parted(words, keeps_links)
        try:
            check(table, links)
            after, told = change(table, *more)
        except Refused as refused:
            return " ".join([f"no {refused}", *show_refused(table), *show_links(links)])
        return ok(*told, *show_links(links and tree.links(after)))
    return answer


def show_entry(entry):
    serial = "-" if entry.serial is None else show(entry.serial)
    head = (entry.start, entry.length, entry.kind, entry.vendor, entry.property, serial, entry.type)
    return [*head, show(entry.value)]


def settings_row(which, row):
    entries = settings.read_row(which, row)
    return ok(len(entries), *(word for entry in entries for word in show_entry(entry)))


def settings_find(which, row, vendor, code, serial):
    found = settings.find(which, row, vendor, code, serial)
    if found is None:
        return "none"
    return ok(found.kind, found.type, show(found.value), found.value_at, found.value_length)


def settings_store(which, row, entry, size):
    return writing_bytes(size, settings.store, which, row, entry)


def settings_write(vendor, code, value_type, value, own, serial, size):
    return writing_bytes(size, settings.write_entry, vendor, code, value_type, value, own, serial)


def settings_remove(which, row, vendor, code, own, serial, size):
    return writing_bytes(size, settings.remove, which, row, vendor, code, own, serial)


def record(data):
    return ok(*recording.read_record(data))


def whole_recording(data):
    """How many records, and of each its kind and where its body is."""
    records = recording.read_recording(data)
    return ok(len(records), *(word for one in records for word in (one.kind, one.start, one.length)))


def write_record(kind, body, size):
    return writing_bytes(size, recording.write_record, kind, body)


def copy(data, size):
    """The writer's answer, then the records and the bytes that were left out."""
    try:
        made = recording.copied(data)
        refuse_if(len(made.data) > size, ROOM)
    except Refused as refused:
        return f"no {refused} {laid_out(size, b'')}"
    return ok(len(made.data), laid_out(size, made.data), made.records, made.left)


def mend(data, size, most):
    """The writer's answer, then the two lists of the report, whole, filled before as the output is."""
    mended, filling = mending.mend(data), int.from_bytes(bytes([FILLING]) * 8, "little")
    if len(mended.data) > size or len(mended.dropped) > most:
        return " ".join([f"no {ROOM} {laid_out(size, b'')}"] + 2 * [show_runs(most * [filling])])
    spare = (most - len(mended.dropped)) * [filling]
    lists = [[getattr(stretch, part) for stretch in mended.dropped] + spare for part in ("start", "length")]
    return ok(len(mended.data), laid_out(size, mended.data), len(mended.dropped), *map(show_runs, lists))


def whole_listing(data):
    return ok(listing.listing(data).replace("\n", "\\n"))


TABLE_WORDS = (u32s, u16s, u32s, u8s, u64, hex_bytes)
KEPT_WORDS = (*TABLE_WORDS, u16s, u16s)

# Each question: how its words are read, and who answers it.
QUESTIONS = {
    "response-name": ((u16,), name(names.response_name)),
    "command-name": ((u16,), name(names.command_name)),
    "value": ((u16, u64, hex_bytes), value),
    "end": ((u64, hex_bytes), end),
    "unit": ((u64, u64, hex_bytes), unit),
    "item": ((u16, u64, u64, hex_bytes), item),
    "units": ((u64, hex_bytes, report), all_units),
    "numbers": ((u16, u64, u64, hex_bytes, report), all_numbers),
    "utf8": ((u64, hex_bytes, room), utf8),
    "write-value": ((u16, word_of, room), write_value),
    "write-string": ((u16s, room), write_string),
    "write-array": ((u16, hex_bytes, room), write_array),
    "tidy-value": ((u16, hex_bytes, room), tidy_value),
    "device": ((hex_bytes,), row(datasets.DEVICE)),
    "object": ((hex_bytes,), row(datasets.OBJECT)),
    "storage": ((hex_bytes,), row(datasets.STORAGE)),
    "property": ((layout, hex_bytes), device_property),
    "tidy-device": ((hex_bytes, room), tidy_row(datasets.DEVICE)),
    "tidy-object": ((hex_bytes, room), tidy_row(datasets.OBJECT)),
    "tidy-storage": ((hex_bytes, room), tidy_row(datasets.STORAGE)),
    "tidy-property": ((layout, hex_bytes, room), tidy_property),
    "nth": ((layout, u64, hex_bytes), nth),
    "list": ((layout, hex_bytes), whole_list),
    "step": ((hex_bytes, u16, u64, u16, u8), step),
    "newer": ((layout, hex_bytes, hex_bytes), newer),
    "header": ((hex_bytes,), header),
    "container": ((hex_bytes,), container),
    "write-container": ((u16, u16, u32, hex_bytes, room), write_container),
    "to-network": ((direction, hex_bytes, room), to_network),
    "from-network": ((hex_bytes, room), from_network),
    "packet": ((u64, hex_bytes), packet),
    "command": ((u32, u16, u32s, room), command),
    "command-data": ((u32, u16, u32s, hex_bytes, room), command_data),
    "panel": ((layout, u32, hex_bytes, u16, hex_bytes, room), set_value),
    "call": ((word_of, u32, u32, u32, u32, room), call),
    "answer": ((u32, hex_bytes), find_answer),
    "response": ((u32, hex_bytes), find_response),
    "needed": ((u32, hex_bytes), needed),
    "handles": ((hex_bytes,), handles),
    "storage-ids": ((hex_bytes,), handles),
    "object-count": ((hex_bytes,), object_count),
    "storage-info": ((hex_bytes,), info(session.storage_info)),
    "device-info": ((hex_bytes,), info(session.device_info)),
    "object-info": ((hex_bytes,), info(session.object_info)),
    "walk": (TABLE_WORDS, listing_places(tree.walk)),
    "path": ((*TABLE_WORDS, u64, room), path),
    "paths": ((*TABLE_WORDS, room), listing_paths(tree.walk_order)),
    "folders": (TABLE_WORDS, listing_places(tree.folders)),
    "folder-paths": ((*TABLE_WORDS, room), listing_paths(tree.folder_order)),
    "delete": ((*TABLE_WORDS, u64), changing(delete, show_marks)),
    "collect": (TABLE_WORDS, changing(collect, show_unchanged)),
    "add": ((*TABLE_WORDS, u64, u32, hex_bytes), changing(add, show_unchanged)),
    "link": (TABLE_WORDS, link),
    "linked-walk": (KEPT_WORDS, listing_places(tree.walk, keeps_links=True)),
    "linked-paths": ((*KEPT_WORDS, room), listing_paths(tree.walk_order, keeps_links=True)),
    "linked-delete": ((*KEPT_WORDS, u64), changing(delete, show_marks, keeps_links=True)),
    "linked-collect": (KEPT_WORDS, changing(collect, show_unchanged, keeps_links=True)),
    "linked-add": ((*KEPT_WORDS, u64, u32, hex_bytes), changing(add, show_unchanged, keeps_links=True)),
    "settings": ((edition, hex_bytes), settings_row),
    "settings-find": ((edition, hex_bytes, u32, u16, u16s), settings_find),
    "settings-store": ((edition, hex_bytes, hex_bytes, room), settings_store),
    "settings-write": ((u32, u16, u16, hex_bytes, is_own, u16s, room), settings_write),
    "settings-remove": ((edition, hex_bytes, u32, u16, is_own, u16s, room), settings_remove),
    "record": ((hex_bytes,), record),
    "recording": ((hex_bytes,), whole_recording),
    "write-record": ((u16, hex_bytes, room), write_record),
    "copy": ((hex_bytes, room), copy),
    "mend": ((hex_bytes, room, report), mend),
    "listing": ((hex_bytes,), whole_listing),
}


def answer(line):
    """The answer to one question, without its line end."""
    if len(line) > LONGEST_LINE:
        return "?"
    question, *words = line.split(" ")
    if question not in QUESTIONS or len(words) != len(QUESTIONS[question][0]):
        return "?"
    readers, ask = QUESTIONS[question]
    try:
        return ask(*(read(word) for read, word in zip(readers, words)))
    except Malformed:
        return "?"
    except Refused as refused:
        return f"no {refused}"


def main():
    for line in sys.stdin.buffer:
        text = line[:-1] if line.endswith(b"\n") else line
        sys.stdout.write(answer(text.decode("latin-1")) + "\n")


if __name__ == "__main__":
    main()
