"""Containers ("Containers" of document 01): u32 length, u16 kind, u16 code, u32 number, payload."""

from collections import namedtuple

from model.refusals import COUNT, KIND, LENGTH, SIZE, refuse_if
from model.values import read_number

COMMAND, DATA, RESPONSE, EVENT = 1, 2, 3, 4
HEADER = 12
MOST_PAYLOAD = 0xFFFFFFFF - HEADER
MOST_PARAMETERS = 5

Header = namedtuple("Header", "kind code number payload_length")


def check_kind(kind):
    refuse_if(not COMMAND <= kind <= EVENT, KIND)


def read_header(data, at=0):
    """The kind is tested once six bytes are there, before the rest is read; the length last: 1, 4, 1, 5."""
    length, at = read_number(data, at, 4)
    kind, at = read_number(data, at, 2)
    check_kind(kind)
    code, at = read_number(data, at, 2)
    number, at = read_number(data, at, 4)
    refuse_if(length < HEADER, LENGTH)
    return Header(kind, code, number, length - HEADER)


def read_container(data, at=0):
    """The header, and the place of a payload that is wholly there (6)."""
    header = read_header(data, at)
    start = at + HEADER
    refuse_if(len(data) - start < header.payload_length, SIZE)
    return header, start


def write_container(kind, code, number, payload):
    """4, then 10."""
    check_kind(kind)
    refuse_if(len(payload) > MOST_PAYLOAD, COUNT)
    numbers = [(HEADER + len(payload), 4), (kind, 2), (code, 2), (number, 4)]
    return b"".join(value.to_bytes(width, "little") for value, width in numbers) + payload


def write_command(code, number, parameters):
    refuse_if(len(parameters) > MOST_PARAMETERS, COUNT)
    return write_container(COMMAND, code, number, b"".join(each.to_bytes(4, "little") for each in parameters))
