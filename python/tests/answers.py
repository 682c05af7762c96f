"""The questions of docs/ASK.md that the package can answer, answered through it. Their words are read as the model reads them."""

import ctypes

import ptp_proved as ptp
from ptp_proved import archive
from ptp_proved.refusal import FARTHEST
from ptp_proved.settings import FOR_ANY, FOR_ONE
from ptp_proved.value import ARRAY, units_of, write_units

from model import ask

FILLING = bytes([ask.FILLING])
WIDE = (9, 10)
# Writers that are given units, which have no place in bytes.
GIVEN_UNITS = ("ptp_write_text", "ptp_settings_write")


# ---- printing

def refusal(why):
    return f"no {why.number}" + ("" if why.place is None else f" {why.place}")


def number(code, value):
    """Of 128 bits as two halves, for the signed type too."""
    word = value % (1 << 128)
    return f"{word >> 64}:{word % (1 << 64)}" if code in WIDE else str(value)


def text(value):
    return "s<" + ".".join(f"{unit:04x}" for unit in units_of(value)) + ">"


def value_word(value):
    if value.value is None:
        return "undef"
    if isinstance(value.value, str):
        return text(value.value)
    if isinstance(value.value, tuple):
        return "[" + ",".join(number(value.data_type - ARRAY, each) for each in value.value) + "]"
    return number(value.data_type, value.value)


def field_word(value):
    if isinstance(value, str):
        return text(value)
    return "[" + ",".join(map(str, value)) + "]" if isinstance(value, tuple) else str(value)


def fields(record):
    return " ".join(field_word(getattr(record, name)) for name in record.__dataclass_fields__)


def bytes_word(data):
    return data.hex() or "-"


# ---- writers: with the room of the question by the library's own call, and without one by the package's

def filled(room):
    return ctypes.create_string_buffer(FILLING * room, room)


def writing(room, make, name, *words):
    """What the package makes is what the call with that room gives; only ROOM is the call's alone."""
    out = filled(room)
    try:
        count = archive.call(name, *words, out)
    except ptp.Refusal as why:
        if why.number != archive.ROOM:
            assert refused(make) == why, "the package and the call refuse otherwise"
        place = None if name in GIVEN_UNITS else why.place
        return f"{refusal(ptp.Refusal(why.number, place))} {bytes_word(out.raw)}"
    assert make() == out.raw[:count], "the package makes other bytes than the call"
    return f"ok {count} {bytes_word(out.raw)}"


def refused(make):
    try:
        make()
    except ptp.Refusal as why:
        return why
    return None


# ---- values

def value(code, at, data):
    reader = ptp.PtpReader(data, at)
    read, after = reader.read_ptp_value(code), reader.place
    assert ptp.encode(code, read.value) == ptp.tidy_value(code, read.bytes), "another tidy spelling"
    return f"ok {value_word(read)} {after}"


def end(at, data):
    ptp.PtpReader(data, at).expect_end()
    return "ok"


def item(code, n, at, data):
    return f"ok {value_word(ptp.item(data, at, code, n))}"


def utf8(at, data, room):
    def make():
        made = ptp.utf8(data, at)
        assert made.decode("utf-8") == ptp.read_text(data, at)[0]
        return made
    if at >= FARTHEST:  # a refusal tells no place that is so far, and the package tells the caller's own
        return f"{refusal(refused(make))} {bytes_word(FILLING * room)}"
    return writing(room, make, "ptp_utf8", data, at)


def write_value(code, word, room):
    value = ask.integer(code, word)
    if value is None:
        return f"ok 0 {bytes_word(filled(room).raw)}"
    whole = value[0] << 64 | value[1] if isinstance(value, tuple) else value
    signed = whole - (1 << 128) if code == 9 and whole >> 127 else whole
    low = whole % (1 << 64)
    return writing(room, lambda: ptp.encode(code, signed), "ptp_write_integer", code, low, whole >> 64 if code in WIDE else 0)


def write_string(units, room):
    return writing(room, lambda: write_units(tuple(units)), "ptp_write_text", archive.shorts(units))


def write_array(code, items, room):
    return writing(room, lambda: ptp.write_array(code, items), "ptp_write_array", code, items)


def tidy_value(code, data, room):
    return writing(room, lambda: ptp.tidy_value(code, data), "ptp_tidy_value", code, data)


def tidy(name, make):
    return lambda data, room: writing(room, lambda: make(data), name, data)


# ---- datasets

def record(kind, with_length=True):
    def answer(data):
        read, taken = kind.decode(data)
        return f"ok {taken} {fields(read)}" if with_length else f"ok {fields(read)}"
    return answer


def device_property(layout, data):
    info, taken = ptp.PtpPropInfo.decode(ptp.PropLayout(layout), data)
    form = info.Form
    enable = "-" if info.IsEnable is None else info.IsEnable
    head = f"ok {taken} {info.PropertyCode} {info.DataType} {info.GetSet} {enable} {value_word(info.FactoryDefault)} {value_word(info.Current)}"
    if isinstance(form, ptp.Range):
        return f"{head} range {value_word(form.minValue)} {value_word(form.maxValue)} {value_word(form.step)}"
    if isinstance(form, ptp.Enumeration):
        return " ".join([head, "list", str(len(form.array)), *map(value_word, form.array)])
    return f"{head} none"


def tidy_property(layout, data, room):
    named = ptp.PropLayout(layout)
    return writing(room, lambda: ptp.tidy_property(named, data), "ptp_tidy_property", named.is_book, data)


def nth(layout, n, data):
    named = ptp.PropLayout(layout)
    found = ptp.PtpPropInfo.nth(named, data, n)
    start, length = ptp.list_value(named, data, n)
    return f"ok {value_word(found)} {start} {length}"


def whole_list(layout, data):
    try:
        info, _ = ptp.PtpPropInfo.decode(ptp.PropLayout(layout), data)
    except ptp.Refusal as why:
        return f"ok {refusal(why)[3:]} 0"
    values = info.Form.array if isinstance(info.Form, ptp.Enumeration) else ()
    return " ".join(["ok", "0", str(len(values)), *map(value_word, values)])


def step(data, code, place, left, stopped):
    found = None if stopped else ptp.next_value(data, code, place, left)
    return "end" if found is None else f"ok {value_word(found[0])} {found[1]} {found[2]}"


def newer(layout, description, payload):
    part = ptp.newer_value(ptp.PropLayout(layout), description, payload)
    return f"ok {'payload' if part.of_payload else 'description'} {part.start} {len(part.bytes)} {bytes_word(part.bytes)}"


# ---- sessions

def made_by(state, room, name, before, words, make):
    """By the library's own call with that room, and by the package; and the session's state after both."""
    counted, end, out, session = ctypes.c_uint32(state), ctypes.c_size_t(0), filled(room), ptp.Session(state)
    try:
        count = archive.call(name, *before, counted, end, *words, out)
    except ptp.Refusal as why:
        if why.number != archive.ROOM:
            assert refused(lambda: make(session)) == why and session.number == state
        return f"{refusal(why)} {bytes_word(out.raw)}"
    made = make(session)
    assert (made.bytes, len(made.command), session.number) == (out.raw[:count], end.value, counted.value)
    return f"ok {made.number} {session.number} {count} {bytes_word(out.raw)}"


def command(state, code, params, room):
    return made_by(state, room, "ptp_command", (), (code, archive.halves(params), b"", False), lambda session: session.command(code, params))


def command_data(state, code, params, data, room):
    return made_by(state, room, "ptp_command", (), (code, archive.halves(params), data, True), lambda session: session.command(code, params, data))


def panel(layout, state, description, code, value, room):
    named = ptp.PropLayout(layout)
    words = description, code, value
    return made_by(state, room, "ptp_set_value", (named.is_book,), words, lambda session: session.set_value(named, *words))


CALLS = {
    "GetDeviceInfo": lambda session, storage, wanted, handle: session.get_device_info(),
    "OpenSession": lambda session, storage, wanted, handle: session.open_session(),
    "CloseSession": lambda session, storage, wanted, handle: session.close_session(),
    "GetStorageIDs": lambda session, storage, wanted, handle: session.get_storageids(),
    "GetStorageInfo": lambda session, storage, wanted, handle: session.get_storage_info(storage),
    "GetNumObjects": lambda session, storage, wanted, handle: session.get_numobjects(storage, handle, wanted),
    "GetObjectHandles": lambda session, storage, wanted, handle: session.get_objecthandles(storage, handle, wanted),
    "GetObjectInfo": lambda session, storage, wanted, handle: session.get_objectinfo(handle),
    "GetObject": lambda session, storage, wanted, handle: session.get_object(handle),
}


# The calls' own forms, for all objects of a storage and for its roots.
OWN_FORMS = {
    ("GetNumObjects", 0): ptp.Session.get_numobjects_all, ("GetNumObjects", 0xFFFFFFFF): ptp.Session.get_numobjects_roots,
    ("GetObjectHandles", 0): ptp.Session.get_objecthandles_all, ("GetObjectHandles", 0xFFFFFFFF): ptp.Session.get_objecthandles_root,
}


def call(name, state, storage, wanted, handle, room):
    if name not in CALLS:
        raise ask.Malformed
    session = ptp.Session(state)
    made = CALLS[name](session, storage, wanted, handle).bytes
    if (name, handle) in OWN_FORMS:
        assert OWN_FORMS[name, handle](ptp.Session(state), storage, wanted).bytes == made
    if len(made) > room:
        return f"no {archive.ROOM} {bytes_word(FILLING * room)}"
    return f"ok {int.from_bytes(made[8:12], 'little')} {session.number} {len(made)} {bytes_word(made + FILLING * (room - len(made)))}"


def answer(tid, data):
    found, after = ptp.find_answer(data, tid)
    if isinstance(found, ptp.Data):
        return f"ok data {found.start} {len(found.payload)} {after}"
    return f"ok response {found.code} {after}"


def handles(read):
    return lambda payload: f"ok {','.join(map(str, read(payload))) or '-'}"


# ---- containers, packets, recordings

def container(data):
    numbers = archive.numbers_at("ptp_read_container", 6, data, 0)
    read, after = ptp.read_container(data)
    assert [after, read.kind, read.code, read.tid, len(read.payload)] == numbers[:4] + numbers[5:]
    return f"ok {int(read.kind)} {read.code} {read.tid} {numbers[4]} {len(read.payload)}"


def write_container(kind, code, tid, payload, room):
    return writing(room, lambda: ptp.write_container(kind, code, tid, payload), "ptp_write_container", kind, code, tid, payload)


def packet(at, data):
    read, after = ptp.read_packet(data, at)
    kind = ptp.PacketKind
    words = {kind.Request: [read.phase, read.code, read.tid], kind.Response: [read.code, read.tid], kind.StartData: [read.tid, read.total]}
    behind = [] if read.kind == kind.StartData else [read.start, len(read.bytes)]
    return " ".join(map(str, ["ok", int(read.kind), *words.get(read.kind, [read.tid]), *behind, after]))


def to_network(way, data, room):
    direction = ptp.DataDirection(way)
    return writing(room, lambda: ptp.to_network(data, direction), "ptp_to_network", data, direction is ptp.DataDirection.ToCamera)


def one_record(data):
    numbers = archive.numbers("ptp_read_record", 9, data)
    read, taken = ptp.read_record(data)
    assert (int(read.kind), read.body) == (numbers[1], data[numbers[2]:numbers[2] + numbers[3]])
    return f"ok {int(read.kind)} {numbers[2]} {len(read.body)} {taken}"


def recording(data):
    told = [f"{int(record.kind)} {place + 6} {len(record.body)}" for place, record in ptp.records(data)]
    assert ptp.read_recording(data) == len(told)
    return " ".join(["ok", str(len(told)), *told])


def write_record(kind, body, room):
    return writing(room, lambda: ptp.write_record(kind, body), "ptp_write_record", kind, body)


def copy(data, room):
    out, left = filled(room), archive.array(archive.NUMBER, [0, 0])
    try:
        count = archive.call("ptp_copy_recording", data, out, left)
    except ptp.Refusal as why:
        return f"{refusal(why)} {bytes_word(out.raw)}"
    assert ptp.copy_recording(data) == ptp.Copied(out.raw[:count], *left)
    return f"ok {count} {bytes_word(out.raw)} {left[0]} {left[1]}"


def mend(data, room, most):
    filling = int.from_bytes(FILLING * 8, "little")
    out, starts, lengths, counts = filled(room), *((archive.NUMBER * most)(*[filling] * most) for _ in range(2)), (archive.NUMBER * 1)()
    try:
        count = archive.call("ptp_mend_recording", data, out, starts, lengths, counts)
        mended = ptp.mend_recording(data)
        assert (mended.bytes, len(mended.dropped)) == (out.raw[:count], counts[0]) and mended.dropped == tuple(zip(starts, lengths))[:counts[0]]
        head = f"ok {count} {bytes_word(out.raw)} {counts[0]}"
    except ptp.Refusal as why:
        head = f"{refusal(why)} {bytes_word(out.raw)}"
    return f"{head} {ask.show_runs(starts)} {ask.show_runs(lengths)}"


def listing(data):
    return "ok " + b"".join(ptp.list_recording(data)).decode("ascii").replace("\n", "\\n")


def name(look_up):
    def answer(code):
        found = look_up(code)
        return "none" if found is None else f"ok {found}"
    return answer


# ---- settings

def entry_words(entry):
    value, serial = entry.value, entry.serial
    assert ptp.write_entry(entry.vendor, entry.property, serial, value.data_type, value.bytes) == entry.bytes
    kind = FOR_ANY if serial is None else FOR_ONE
    return [entry.start, len(entry.bytes), kind, entry.vendor, entry.property, "-" if serial is None else text(serial), value.data_type, value_word(value)]


def settings_row(which, row):
    read = ptp.Settings(ptp.Edition(which), row)
    return " ".join(map(str, ["ok", len(read), *(word for entry in read for word in entry_words(entry))]))


def settings_find(which, row, vendor, code, serial):
    kept = ptp.Settings(ptp.Edition(which), row).find_units(vendor, code, serial)
    if kept is None:
        return "none"
    return f"ok {FOR_ONE if kept.is_own else FOR_ANY} {kept.value.data_type} {value_word(kept.value)} {kept.start} {len(kept.value.bytes)}"


def settings_store(which, row, entry, room):
    edition = ptp.Edition(which)
    return writing(room, lambda: ptp.Settings(edition, row).store(entry).bytes, "ptp_settings_store", edition.is_second, row, entry)


def serial_text(units):
    return b"".join(unit.to_bytes(2, "little") for unit in units).decode("utf-16-le", "surrogatepass")


def settings_write(vendor, code, value_type, value, own, serial, room):
    words = vendor, code, value_type, value, own, archive.shorts(serial)
    return writing(room, lambda: ptp.write_entry(vendor, code, serial_text(serial) if own else None, value_type, value), "ptp_settings_write", *words)


def settings_remove(which, row, vendor, code, own, serial, room):
    edition = ptp.Edition(which)
    words = edition.is_second, row, vendor, code, own, archive.shorts(serial)
    return writing(room, lambda: ptp.Settings(edition, row).remove(vendor, code, serial_text(serial) if own else None).bytes, "ptp_settings_remove", *words)


# ---- lists that are lent: with the room of the question by the library's own call, and without one by the package's

def lent(kind, room, make, name, *words):
    out = (kind * room).from_buffer_copy(FILLING * (ctypes.sizeof(kind) * room))
    try:
        head = f"ok {archive.call(name, *words, out)}"
    except ptp.Refusal as why:
        if why.number != archive.ROOM:
            why = refused(make)
        head = refusal(why)
    return f"{head} {ask.show_runs(list(out))}"


def all_units(at, data, room):
    return lent(ctypes.c_uint16, room, lambda: ptp.units(data, at), "ptp_units", data, at)


def all_numbers(code, at, count, data, room):
    return lent(archive.NUMBER, room, lambda: ptp.list_numbers(data, at, code, count), "ptp_list_numbers", data, at, code, count)


# ---- a Response: its Data payload is told for Ok alone, else it is looked for

def last_data(data, end):
    at, last = 0, (0, 0)
    while at < end:
        container, after = ptp.read_container(data, at)
        if container.kind == ptp.PtpContainerType.Data:
            last = after - len(container.payload), len(container.payload)
        at = after
    return last


def response(tid, data):
    found, after = ptp.find_answer(data, tid)
    code, place = (0x2001 if isinstance(found, ptp.Data) else found.code), first_response(data)
    size = after - place
    assert len(found.params) == size // 4
    return f"ok {code} {place} {size} {' '.join(map(str, last_data(data, place - 12)))} {after}"


def first_response(data):
    at = 0
    while True:
        container, after = ptp.read_container(data, at)
        if container.kind == ptp.PtpContainerType.Response:
            return after - len(container.payload)
        at = after


ANSWERS = {
    "response-name": name(ptp.response_name), "command-name": name(ptp.command_name), "value": value, "end": end,
    "unit": lambda n, at, data: f"ok {ptp.unit(data, at, n)}", "item": item, "utf8": utf8, "write-value": write_value, "write-string": write_string,
    "write-array": write_array, "tidy-value": tidy_value, "device": record(ptp.PtpDeviceInfo), "object": record(ptp.PtpObjectInfo),
    "storage": record(ptp.PtpStorageInfo), "property": device_property, "tidy-device": tidy("ptp_tidy_device", ptp.tidy_device),
    "tidy-object": tidy("ptp_tidy_object", ptp.tidy_object), "tidy-storage": tidy("ptp_tidy_storage", ptp.tidy_storage),
    "tidy-property": tidy_property, "nth": nth, "list": whole_list, "step": step, "newer": newer, "container": container,
    "write-container": write_container, "to-network": to_network, "from-network": tidy("ptp_from_network", ptp.from_network), "packet": packet,
    "command": command, "command-data": command_data, "panel": panel, "call": call, "answer": answer, "handles": handles(ptp.object_handles),
    "storage-ids": handles(ptp.storage_ids), "object-count": lambda payload: f"ok {ptp.object_count(payload)}",
    "storage-info": lambda payload: f"ok {fields(ptp.storage_info(payload))}", "device-info": record(ptp.PtpDeviceInfo, with_length=False),
    "object-info": record(ptp.PtpObjectInfo, with_length=False), "settings": settings_row, "settings-find": settings_find,
    "settings-store": settings_store, "record": one_record, "recording": recording, "write-record": write_record, "copy": copy, "mend": mend,
    "listing": listing, "settings-write": settings_write, "settings-remove": settings_remove, "units": all_units, "numbers": all_numbers,
    "response": response, "needed": lambda tid, data: f"ok {ptp.needed(data, tid)}",
}
