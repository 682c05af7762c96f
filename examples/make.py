"""Makes the recordings of this folder, and their listings, from the descriptions beside it (*.txt); and the rows of settings and of packets, and
the object tables, with their texts.

    python3 -m examples.make            writes NAME.recording, NAME.listing and NAME.shown for each `recording NAME`, of a damaged one also
                                        NAME.mended and NAME.report; NAME.settings and NAME.shown for each `settings NAME`; NAME.packets and
                                        NAME.shown for each `packets NAME`; NAME.table and NAME.shown for each `table NAME`
    python3 -m examples.make --check    writes nothing, and fails where a file is not what its description says

A listing's lines, a report's and a text's are made from the description, line by line, not by reading the bytes. Then the model, which
reads the bytes, must give the same. What is shown of a recording is the model's alone. No code of the crates takes part.

A recording's lines, each one record (a line that begins with a space goes on with the one before, # begins a comment):

    out|in KIND CODE NUMBER FIELD ..    a container, sent or received; CODE is a name, or 0x and four digits
    note "TEXT"  or  note FIELD ..      an operator's note, of a recording that is old
    raw FIELD .. refusal NO [AT] [kept PLACE:BYTES]
                                        bytes that are refused with this number and place; `refusal -`: not reached any more. Mending keeps
                                        so many of them from that place in them on, or none
    lost NAME PLACE:BYTES .. listed COUNT refusal NO [AT] dropped PLACE:BYTES ..
                                        all of the recording NAME but these bytes; so many records are listed, and of what is left mending
                                        drops these bytes

A row's lines, each one entry:

    any VENDOR PROPERTY TYPE FIELD ..             for any camera
    one SERIAL VENDOR PROPERTY TYPE FIELD ..      for the camera of this serial

A packet's lines, each one packet; CODE is as above:

    request PHASE CODE NUMBER FIELD ..  the parameters are the fields
    response CODE NUMBER FIELD ..
    start-data NUMBER TOTAL
    data NUMBER FIELD ..                and end-data

A table's lines, each one object, the first its root:

    object PARENT HANDLE NAME           PARENT is a place, which counts these lines from 0
    ended PARENT HANDLE NAME            one that is not live

A field is [LABEL=]TYPE:VALUE with the types u8, u16, u32, u64, string, array16, array32, hex and zeros (a count).
"""

import pathlib
import re
import shlex
import sys
from collections import namedtuple

from model import datasets, listing, mending, names, network, settings, tree
from model import show as shown_entries
from model.ask import show, show_runs
from model.values import Text

FOLDER = pathlib.Path(__file__).resolve().parent
KINDS = {"Command": 1, "Data": 2, "Response": 3, "Event": 4}
WAYS = {"in": 1, "out": 2}
NOTE = 3
# The layout of a recording's property descriptions, where it is not the crate's.
LAYOUTS = {"book": datasets.BOOK}
FIELD = re.compile(r"(?:\w+=)?(u8|u16|u32|u64|string|array16|array32|hex|zeros):(.*)", re.DOTALL)

SETTINGS_HEADING = "place kind vendor property serial type value\n"

# A line of a description made: the bytes of the record or the entry, its line after the place, whether it is whole, and what mending drops.
Made = namedtuple("Made", "data text whole dropped")


def little(number, width):
    return number.to_bytes(width, "little")


def string(text):
    """A tidy string: a count of units, the last one 0; one byte 0 for the empty one."""
    units = text.encode("utf-16-le")
    return bytes([len(units) // 2 + 1]) + units + b"\x00\x00" if text else b"\x00"


def array(text, width):
    numbers = [int(word, 0) for word in text.split(",") if word]
    return little(len(numbers), 4) + b"".join(little(number, width) for number in numbers)


def text_shown(text):
    """In quotes; the examples' texts need no escapes."""
    return f'"{text}"'


# How a value that is one field is shown.
FIELD_SHOWN = {
    "string": text_shown,
    "array16": lambda text: f"[{text}]",
    "array32": lambda text: f"[{text}]",
}
FIELD_BYTES = {
    "u8": lambda text: little(int(text, 0), 1),
    "u16": lambda text: little(int(text, 0), 2),
    "u32": lambda text: little(int(text, 0), 4),
    "u64": lambda text: little(int(text, 0), 8),
    "string": string,
    "array16": lambda text: array(text, 2),
    "array32": lambda text: array(text, 4),
    "hex": bytes.fromhex,
    "zeros": lambda text: bytes(int(text)),
}


def fields(words):
    made = []
    for word in words:
        kind, value = FIELD.fullmatch(word).groups()
        made.append(FIELD_BYTES[kind](value))
    return b"".join(made)


def code_of(kind, word):
    if word.startswith("0x"):
        return int(word, 16)
    if kind == "Response":
        return names.FIRST_RESPONSE + names.RESPONSES.index(word)
    return names.FIRST_COMMAND + names.COMMANDS.index(word)


def record(kind, body):
    return little(6 + len(body), 4) + little(kind, 2) + body


def container_line(way, kind, code, number, *words):
    payload = fields(words)
    head = little(12 + len(payload), 4) + little(KINDS[kind], 2) + little(code_of(kind, code), 2) + little(int(number), 4)
    return Made(record(WAYS[way], head + payload), f"{way} {kind} {code} {number} {len(payload)}", True, [])


def note_line(_, *words):
    is_text = len(words) == 1 and not FIELD.fullmatch(words[0])
    body = words[0].encode("utf-8") if is_text else fields(words)
    return Made(record(NOTE, body), f"old-note {len(body)}", True, [])


def spans(words):
    """PLACE:BYTES, each."""
    return [tuple(map(int, word.split(":"))) for word in words]


def split_at(words, *marks):
    """What stands before each mark and after the last; a mark that is not there has nothing after it."""
    found = []
    for mark in marks:
        at = words.index(mark) if mark in words else len(words)
        found.append(words[:at])
        words = words[at + 1:]
    return [*found, words]


def without(data, lost):
    """The bytes but these."""
    for place, size in sorted(lost, reverse=True):
        data = data[:place] + data[place + size:]
    return data


def raw_line(_, *words):
    made, refusal, kept = split_at(words, "refusal", "kept")
    data = fields(made)
    place, size = spans(kept)[0] if kept else (len(data), 0)
    dropped = [span for span in ((0, place), (place + size, len(data) - place - size)) if span[1]]
    return Made(data, None if refusal == ("-",) else " ".join(("refusal", *refusal)), False, dropped)


def value_shown(words):
    """One field's value; no field is a type's that has no value."""
    if not words:
        return "undef"
    kind, value = FIELD.fullmatch(words[0]).groups()
    return FIELD_SHOWN.get(kind, lambda text: str(int(text, 0)))(value)


def entry(kind, vendor, code, serial, value_type, words):
    """An entry, its serial as bytes and as it is shown."""
    numbers = int(vendor, 0), int(code, 0), int(value_type, 0)
    rest = little(numbers[0], 4) + little(numbers[1], 2) + serial[0] + little(numbers[2], 2) + fields(words)
    text = f"{kind} {numbers[0]} 0x{numbers[1]:04x} {serial[1]} 0x{numbers[2]:04x} {value_shown(words)}"
    return Made(little(6 + len(rest), 4) + little(kind, 2) + rest, text, True, [])


def any_line(_, vendor, code, value_type, *words):
    return entry(settings.FOR_ANY, vendor, code, (b"", "-"), value_type, words)


def one_line(_, serial, vendor, code, value_type, *words):
    return entry(settings.FOR_ONE, vendor, code, (string(serial), text_shown(serial)), value_type, words)


def packet(kind, head, code, number, behind):
    """A packet's kind by number and by word; the bytes of the fields before its number and of those behind it."""
    rest = head + little(int(number), 4) + behind[0]
    words = [word for word in (kind[1], code, number, behind[1]) if word is not None]
    return Made(little(8 + len(rest), 4) + little(kind[0], 4) + rest, " ".join(words), True, [])


def counted(words):
    """Fields, and how many bytes they are."""
    data = fields(words)
    return data, str(len(data))


def request_line(_, phase, code, number, *words):
    return packet((6, "request"), little(int(phase), 4) + little(code_of("Command", code), 2), code, number, counted(words))


def response_line(_, code, number, *words):
    return packet((7, "response"), little(code_of("Response", code), 2), code, number, counted(words))


def start_data_line(_, number, total):
    return packet((9, "start-data"), b"", None, number, (little(int(total), 8), total))


def data_line(word, number, *words):
    return packet(({"data": 10, "end-data": 12}[word], word), b"", None, number, counted(words))


def object_line(word, parent, handle, name):
    return int(parent), int(handle), name, word == "object"


LINES = {
    "in": container_line, "out": container_line, "note": note_line, "raw": raw_line, "any": any_line, "one": one_line, "request": request_line,
    "response": response_line, "start-data": start_data_line, "data": data_line, "end-data": data_line, "object": object_line, "ended": object_line,
}


def joined_lines(text):
    """Lines with those that go on with them; no comments and no empty lines."""
    lines = []
    for line in text.splitlines():
        if not line.strip() or line.startswith("#"):
            continue
        if line.startswith(" "):
            lines[-1] += line
        else:
            lines.append(line)
    return lines


def described():
    """The lines of each recording, of each row of settings or packets, and of each table, by its name."""
    found = {"recording": {}, "settings": {}, "packets": {}, "table": {}}
    for description in sorted(FOLDER.glob("*.txt")):
        for line in joined_lines(description.read_text(encoding="utf-8")):
            words = shlex.split(line)
            if words[0] in found:
                lines = found[words[0]][words[1]] = []
            else:
                lines.append(words)
    return found


def made_of(lines):
    return [LINES[words[0]](*words) for words in lines]


def listing_of(lines):
    """The listing that the description says: places and counts summed up, the records' own words as they stand there."""
    text, place, count = listing.HEADING, 0, 0
    for made in lines:
        text += f"{place} {made.text}\n"
        if not made.whole:
            break
        place += len(made.data)
        count += 1
    return f"{text}records {count} bytes {place}\n"


def dropped_of(lines):
    """What mending drops of all lines, stretches that touch joined."""
    dropped, place = [], 0
    for made in lines:
        for start, size in made.dropped:
            if dropped and sum(dropped[-1]) == place + start:
                dropped[-1] = dropped[-1][0], dropped[-1][1] + size
            else:
                dropped.append((place + start, size))
        place += len(made.data)
    return dropped


def lost_from(lines, _, *words):
    """A recording of these lines without the bytes that are lost: its bytes, its listing, and what mending drops."""
    lost, count, refusal, dropped = split_at(words, "listed", "refusal", "dropped")
    listed = lines[:int(count[0])] + [Made(b"", " ".join(("refusal", *refusal)), False, [])]
    return without(b"".join(made.data for made in lines), spans(lost)), listing_of(listed), spans(dropped)


def recording_of(lines, recordings):
    """The bytes, the listing, and what mending drops."""
    if lines[0][0] == "lost":
        return lost_from(made_of(recordings[lines[0][1]]), *lines[0][1:])
    made = made_of(lines)
    return b"".join(one.data for one in made), listing_of(made), dropped_of(made)


def shown_of(lines):
    """The text that the description says of a row."""
    text, place = SETTINGS_HEADING, 0
    for made in lines:
        text += f"{place} {made.text}\n"
        place += len(made.data)
    return f"{text}entries {len(lines)} bytes {place}\n"


def shown_by_model(row):
    """The same from the bytes: texts in quotes, codes by four hexadecimal digits."""
    def text(value):
        return text_shown(b"".join(little(unit, 2) for unit in value).decode("utf-16-le")) if isinstance(value, Text) else show(value)

    entries = settings.read_row(2, row)
    lines = [f"{one.start} {one.kind} {one.vendor} 0x{one.property:04x} {'-' if one.serial is None else text(Text(one.serial))} 0x{one.type:04x} {text(one.value)}\n"
             for one in entries]
    return SETTINGS_HEADING + "".join(lines) + f"entries {len(entries)} bytes {len(row)}\n"


def row_outputs(name, lines):
    made = made_of(lines)
    data, shown = b"".join(one.data for one in made), shown_of(made)
    if shown_by_model(data) != shown:
        sys.exit(f"examples: the model shows {name} otherwise than its description says")
    yield f"{name}.settings", data
    yield f"{name}.shown", shown.encode("ascii")


def packets_by_model(data):
    """The text of a row of packets, from its bytes; each transaction in it must be one."""
    text, at, begins = "", 0, 0
    for one in network.packets(data):
        code = one.fields.get("code")
        named = names.response_name(code) if one.kind == network.ANSWER else code and names.command_name(code)
        words = [PACKET_WORDS[one.kind], *([] if code is None else [named or f"0x{code:04x}"]), one.fields["number"],
                 one.fields.get("total", one.after - one.start)]
        text += f"{at} {' '.join(map(str, words))}\n"
        at = one.after
        if one.kind == network.ANSWER:
            network.from_network(data[begins:at])
            begins = at
    return text


PACKET_WORDS = {
    network.REQUEST: "request", network.ANSWER: "response", network.START_DATA: "start-data", network.SOME_DATA: "data", network.END_DATA: "end-data",
}


def packets_outputs(name, lines):
    made, place, shown = made_of(lines), 0, ""
    for one in made:
        shown += f"{place} {one.text}\n"
        place += len(one.data)
    data = b"".join(one.data for one in made)
    if packets_by_model(data) != shown:
        sys.exit(f"examples: the model shows {name} otherwise than its description says")
    yield f"{name}.packets", data
    yield f"{name}.shown", shown.encode("ascii")


def paths_below(objects, place, above):
    """The paths of the live objects from a place down, each folder before what it holds: by going down, as a person would."""
    path = above + ("/" if above else "") + objects[place][2]
    yield path
    for child, (parent, _, _, is_live) in enumerate(objects):
        if child and parent == place and is_live:
            yield from paths_below(objects, child, path)


def table_of(objects):
    spelled = [string(name) for _, _, name, _ in objects]
    ends = [sum(map(len, spelled[:count + 1])) for count in range(len(spelled))]
    rows = [[handle for _, handle, _, _ in objects], [parent for parent, _, _, _ in objects], ends, [int(is_live) for _, _, _, is_live in objects]]
    filled = [row + [0] * (tree.PLACES - len(row)) for row in rows]
    return tree.Table(*filled, len(objects), b"".join(spelled))


def table_outputs(name, lines):
    objects = made_of(lines)
    table, paths = table_of(objects), list(paths_below(objects, 0, ""))
    if [tree.path(table, place).decode() for place in tree.folders(table)] != paths:
        sys.exit(f"examples: the model shows {name} otherwise than its description says")
    words = [*map(show_runs, table[:4]), str(table.count), table.names.hex()]
    yield f"{name}.table", (" ".join(words) + "\n").encode("ascii")
    yield f"{name}.shown", "".join(path.replace("\\", "\\\\") + "\n" for path in paths).encode()


def recording_outputs(name, lines, recordings):
    data, listed, dropped = recording_of(lines, recordings)
    mended = mending.mend(data)
    if listing.listing(data) != listed or mended.dropped != dropped or mended.data != without(data, dropped):
        sys.exit(f"examples: the model lists or mends {name} otherwise than its description says")
    yield f"{name}.recording", data
    yield f"{name}.listing", listed.encode("ascii")
    yield f"{name}.shown", shown_entries.text(data, LAYOUTS.get(name, datasets.CRATE)).encode()
    if dropped:
        yield f"{name}.mended", mended.data
        yield f"{name}.report", mending.report(mended).encode("ascii")


def outputs():
    """Each file's path and bytes."""
    found = described()
    for name, lines in found["recording"].items():
        yield from recording_outputs(name, lines, found["recording"])
    for name, lines in found["settings"].items():
        yield from row_outputs(name, lines)
    for name, lines in found["packets"].items():
        yield from packets_outputs(name, lines)
    for name, lines in found["table"].items():
        yield from table_outputs(name, lines)


def main():
    if sys.argv[1:] == ["--check"]:
        stale = [name for name, data in outputs() if not (FOLDER / name).exists() or (FOLDER / name).read_bytes() != data]
        sys.exit(f"examples: not as described: {' '.join(stale)}" if stale else 0)
    for name, data in outputs():
        (FOLDER / name).write_bytes(data)


if __name__ == "__main__":
    main()
