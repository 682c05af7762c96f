"""Datasets ("Datasets" of document 01): device, object, storage and property, all permitting bytes after them."""

from collections import namedtuple

from model.refusals import PLACE, Refused, refuse_if
from model.values import STRING, read_number, read_value, write_number, write_value

UINT8, UINT16, UINT32, UINT64, AUINT16 = 0x0002, 0x0004, 0x0006, 0x0008, 0x4004

# The fields' types in the Rust's order.
DEVICE = [UINT16, UINT32, UINT16, STRING, UINT16] + [AUINT16] * 5 + [STRING] * 4
OBJECT = ([UINT32, UINT16, UINT16, UINT32, UINT16] + [UINT32] * 7
          + [UINT16, UINT32, UINT32] + [STRING] * 4)
STORAGE = [UINT16, UINT16, UINT16, UINT64, UINT64, UINT32, STRING, STRING]

RANGE_FORM = 1
LIST_FORM = 2

# The layouts of a description: the crate's has the `IsEnable` byte behind GetSet, the book's (PIMA 15740) has none.
CRATE, BOOK = "crate", "book"
LAYOUTS = (CRATE, BOOK)

# `enable` is None in the book's layout. `current_at` and `form_at` are the places of the current value's bytes and of
# the byte after the form byte: the reading's places, not its contents.
Property = namedtuple("Property", "code type getset enable default current form values length current_at values_at")

# Where a list's next value stands: what the list struct holds beside the bytes.
ListPlace = namedtuple("ListPlace", "type place left refusal")

# A part of the description or of the newer payload.
Part = namedtuple("Part", "of start length")


def read_row(types, data, at=0):
    """Values of these types, one after the other; the first that fails refuses."""
    row = []
    for code in types:
        value, at = read_value(code, data, at)
        row.append(value)
    return row, at


def tidy_row(types, data):
    row, _ = read_row(types, data)
    return b"".join(write_value(code, value) for code, value in zip(types, row))


def read_property(layout, data):
    """Code, type, GetSet, IsEnable if the layout has it, default, current, form byte; then the form's own values."""
    (code, kind, getset, enable, default), current_at = _read_to_default(layout, data)
    current, at = read_value(kind, data, current_at)
    form, at = read_number(data, at, 1)
    count, values_at = _read_count(form, data, at)
    values, after = read_row([kind] * count, data, values_at)
    return Property(code, kind, getset, enable, default, current, form, values, after, current_at, values_at)


def _read_to_default(layout, data):
    (code, kind, getset), at = read_row([UINT16, UINT16, UINT8], data)
    enable, at = read_number(data, at, 1) if layout == CRATE else (None, at)
    default, at = read_value(kind, data, at)
    return (code, kind, getset, enable, default), at


def _read_count(form, data, at):
    """How many values the form has: 3 for a range, a u16 for a list, none for any other form byte."""
    if form == RANGE_FORM:
        return 3, at
    if form == LIST_FORM:
        return read_number(data, at, 2)
    return 0, at


def tidy_property(layout, data):
    """The tidy form byte of no form is 0."""
    read = read_property(layout, data)
    head = [write_number(UINT16, read.code), write_number(UINT16, read.type),
            write_number(UINT8, read.getset), b"" if read.enable is None else write_number(UINT8, read.enable),
            write_value(read.type, read.default), write_value(read.type, read.current)]
    return b"".join(head) + _tidy_form(read) + b"".join(write_value(read.type, value) for value in read.values)


def _tidy_form(read):
    if read.form == RANGE_FORM:
        return bytes([RANGE_FORM])
    if read.form == LIST_FORM:
        return bytes([LIST_FORM]) + write_number(UINT16, len(read.values))
    return b"\x00"


def nth(layout, index, data):
    """The n-th value of the list from 0, with start and length of its bytes; 12 if absent or no list."""
    read = read_property(layout, data)
    refuse_if(read.form != LIST_FORM or index >= len(read.values), PLACE)
    _, start = read_row([read.type] * index, data, read.values_at)
    value, after = read_value(read.type, data, start)
    return value, start, after - start


def list_of(layout, data):
    """Where the list begins: a refused dataset has its refusal's number and place, and nothing left."""
    try:
        read = read_property(layout, data)
    except Refused as refused:
        return ListPlace(type=0, place=refused.place, left=0, refusal=refused.number)
    left = len(read.values) if read.form == LIST_FORM else 0
    return ListPlace(read.type, read.values_at, left, refusal=0)


def step(data, here):
    """The next value and where the list stands after it, or None: the end. Any numbers may stand in `here`."""
    if here.refusal != 0 or here.left == 0:
        return None
    try:
        value, after = read_value(here.type, data, here.place)
    except Refused:
        return None
    return value, here._replace(place=after, left=here.left - 1)


def all_steps(layout, data):
    """Where the list begins, and every value that stepping gives before the end."""
    start = here = list_of(layout, data)
    values = []
    while (stepped := step(data, here)) is not None:
        value, here = stepped
        values.append(value)
    return start, values


def newer(layout, description, payload):
    """The whole payload if it is exactly one value of the description's type, else the current value's bytes."""
    try:
        read = read_property(layout, description)
    except Refused:
        return Part("description", 0, 0)
    if _is_one_value(read.type, payload):
        return Part("payload", 0, len(payload))
    _, after = read_value(read.type, description, read.current_at)
    return Part("description", read.current_at, after - read.current_at)


def _is_one_value(code, payload):
    try:
        return read_value(code, payload, 0)[1] == len(payload)
    except Refused:
        return False
