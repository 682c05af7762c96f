"""Settings kept from reel to reel (request 7 of document 02): a row of entries, each u32 length, u16 kind, fields.

Kind 16: vendor u32, property u16, type u16, value. Kind 17 has the camera's serial, a string, after the property. Edition 1 knows kind 16
alone, edition 2 both.
"""

from collections import namedtuple

from model.refusals import EDITION, FULL, RECORD, TRAIL, Refused, refuse_if
from model.values import STRING, read_number, read_string, read_value, take, write_string

FOR_ANY, FOR_ONE = 16, 17
KINDS = {1: (FOR_ANY,), 2: (FOR_ANY, FOR_ONE)}
ENTRY_HEADER = 6
MOST_ENTRIES = 256
MOST_LENGTH = 0xFFFFFFFF


class Entry(namedtuple("Entry", "start length kind vendor property serial type value value_at value_length")):
    """An entry, its value also by the bytes that it takes. An entry for any camera has the serial None."""

    @property
    def key(self):
        return self.kind, self.vendor, self.property, self.serial


def is_untidy(spelled):
    """Of a string's bytes: its count is 1, or its last unit is not 0."""
    return spelled[0] == 1 or any(spelled[1:][-2:])


def read_entry(edition, data, at, alone=False):
    """1 for six bytes, 17, 13, 1 for the rest; the fields' 1 and 2 within the entry; 3, of one that is alone also for bytes after it; 13 untidy."""
    length, kind_at = read_number(data, at, 4)
    kind, vendor_at = read_number(data, kind_at, 2)
    refuse_if(kind not in KINDS[edition], EDITION)
    refuse_if(length < ENTRY_HEADER, RECORD)
    _, end = take(data, vendor_at, length - ENTRY_HEADER, vendor_at)
    own = data[:end]
    vendor, property_at = read_number(own, vendor_at, 4)
    code, serial_at = read_number(own, property_at, 2)
    serial, type_at = read_string(own, serial_at) if kind == FOR_ONE else (None, serial_at)
    value_type, value_at = read_number(own, type_at, 2)
    value, after = read_value(value_type, own, value_at)
    refuse_if(after < end or alone and end < len(data), TRAIL)
    refuse_if(kind == FOR_ONE and is_untidy(own[serial_at:type_at]), RECORD)
    refuse_if(value_type == STRING and is_untidy(own[value_at:after]), RECORD)
    return Entry(at, length, kind, vendor, code, serial, value_type, value, value_at, after - value_at)


def read_row(edition, row):
    """The entries from end to end: entry by entry its own refusals, 13 for a key that stood before, 18 beside 256 others."""
    at, entries = 0, []
    while at < len(row):
        entry = read_entry(edition, row, at)
        refuse_if(held(entries, entry.key) is not None, RECORD)
        refuse_if(len(entries) == MOST_ENTRIES, FULL)
        entries.append(entry)
        at += entry.length
    return entries


def held(entries, key):
    """The place among the entries of the one with this key, or None."""
    return next((place for place, entry in enumerate(entries) if entry.key == key), None)


def find(edition, row, vendor, code, serial):
    """The entry that stands for a camera's property, or None: edition 2 looks for the serial's own first."""
    entries = read_row(edition, row)
    keys = [(FOR_ANY, vendor, code, None)]
    if edition == 2:
        keys.insert(0, (FOR_ONE, vendor, code, tuple(serial)))
    places = [held(entries, key) for key in keys]
    return next((entries[place] for place in places if place is not None), None)


def store(edition, row, data):
    """The row with the new entry in place of the one with its key, or last. The row's refusals, then the entry's, then 18."""
    entries = read_row(edition, row)
    entry = read_entry(edition, data, 0, alone=True)
    place = held(entries, entry.key)
    refuse_if(place is None and len(entries) == MOST_ENTRIES, FULL)
    parts = [row[one.start:one.start + one.length] for one in entries]
    if place is None:
        parts.append(data)
    else:
        parts[place] = data
    return b"".join(parts)


def remove(edition, row, vendor, code, own, serial):
    """The row without the entry of this key; the row itself where none has it."""
    entries = read_row(edition, row)
    place = held(entries, (FOR_ONE, vendor, code, tuple(serial)) if own else (FOR_ANY, vendor, code, None))
    return b"".join(row[one.start:one.start + one.length] for number, one in enumerate(entries) if number != place)


def write_entry(vendor, code, value_type, value, own, serial):
    """2 and 10 of the serial; 13 where the bytes are not exactly one tidy value, or the length has no room in four bytes."""
    spelled = write_string(serial) if own else b""
    refuse_if(not is_one_value(value_type, value), RECORD)
    rest = vendor.to_bytes(4, "little") + code.to_bytes(2, "little") + spelled + value_type.to_bytes(2, "little") + value
    refuse_if(ENTRY_HEADER + len(rest) > MOST_LENGTH, RECORD)
    return (ENTRY_HEADER + len(rest)).to_bytes(4, "little") + (FOR_ONE if own else FOR_ANY).to_bytes(2, "little") + rest


def is_one_value(value_type, value):
    try:
        _, after = read_value(value_type, value, 0)
    except Refused:
        return False
    return after == len(value) and not (value_type == STRING and is_untidy(value))
