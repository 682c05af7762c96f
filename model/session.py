"""Transactions and camera calls ("Transactions", "Camera calls" of document 01, its numbers as request 1 of document 02 mends them)."""

from collections import namedtuple

from model.containers import DATA, HEADER, RESPONSE, read_container, read_header, write_command, write_container
from model.datasets import DEVICE, OBJECT, STORAGE, read_row
from model.names import command_code
from model.refusals import END, NOPHASE, SIZE, TID, Refused, refuse_if
from model.values import expect_end, read_array, read_number

OK = 0x2001
UINT32 = 0x0006
OPEN_SESSION = 0x1002
CLOSE_SESSION = 0x1003
LAST_NUMBER = 4_294_967_294
# With its first six bytes a container's kind is there.
KIND_END = 6

# What one made command is: its number, the session's state after it, and the bytes to send.
Made = namedtuple("Made", "number next_state output")

# What the search for an answer finds: the last Data payload for a Response Ok, else the Response's code.
DataFound = namedtuple("DataFound", "start length after")
# The Response itself: its own payload, and the last Data payload before it.
Response = namedtuple("Response", "code start length data_start data_length after")
ResponseFound = namedtuple("ResponseFound", "code after")

# The parameters of each camera call, from storage, filter and handle.
CALLS = {
    "GetDeviceInfo": lambda storage, wanted, handle: [0, 0, 0],
    "OpenSession": lambda storage, wanted, handle: [3, 0, 0],
    "CloseSession": lambda storage, wanted, handle: [],
    "GetStorageIDs": lambda storage, wanted, handle: [],
    "GetStorageInfo": lambda storage, wanted, handle: [storage],
    "GetNumObjects": lambda storage, wanted, handle: [storage, wanted, handle],
    "GetObjectHandles": lambda storage, wanted, handle: [storage, wanted, handle],
    "GetObjectInfo": lambda storage, wanted, handle: [handle],
    "GetObject": lambda storage, wanted, handle: [handle],
}


def turn(state, code):
    """The number that is sent, and the state after it: 0 in a closed session, in an open one its next number."""
    if code == OPEN_SESSION:
        return 0, 1
    if state == 0:
        return 0, 0
    if code == CLOSE_SESSION:
        return state, 0
    return state, state + 1 if state < LAST_NUMBER else 1


def command(state, code, parameters):
    number, next_state = turn(state, code)
    return Made(number, next_state, write_command(code, number, parameters))


def command_with_data(state, code, parameters, payload):
    """The Command, then its Data container with the same number, in one output."""
    made = command(state, code, parameters)
    return made._replace(output=made.output + write_container(DATA, code, made.number, payload))


def call(name, state, storage, wanted, handle):
    return command(state, command_code(name), CALLS[name](storage, wanted, handle))


def find_response(number, data):
    """Containers lie end to end; each in the container's order, then 6, 7; none left at a start is 8."""
    at, start, length = 0, 0, 0
    while True:
        refuse_if(at == len(data), NOPHASE)
        header, payload_at = read_container(data, at)
        refuse_if(header.number != number, TID)
        at = payload_at + header.payload_length
        if header.kind == DATA:
            start, length = payload_at, header.payload_length
        if header.kind == RESPONSE:
            return Response(header.code, payload_at, header.payload_length, start, length, at)


def find_answer(number, data):
    """The last Data payload is told for Ok alone."""
    found = find_response(number, data)
    if found.code == OK:
        return DataFound(found.data_start, found.data_length, found.after)
    return ResponseFound(found.code, found.after)


def is_open(number, data):
    """Whether bytes that follow may change the answer: it is 1, 6 or 8."""
    try:
        find_response(number, data)
    except Refused as refused:
        return refused.number in (END, SIZE, NOPHASE)
    return False


def needed(number, data):
    """How many bytes must follow at least before anything can be said: the kind of the container that is cut, then all of it; of one that is passed over also the next one's kind."""
    if not is_open(number, data):
        return 0
    at = 0
    while is_whole(data, at):
        at += read_number(data, at, 4)[0]
    left = len(data) - at
    if left < KIND_END:
        return KIND_END - left
    missing = max(HEADER, read_number(data, at, 4)[0]) - left
    if left < HEADER:
        return missing
    header = read_header(data, at)
    return missing + KIND_END if header.number == number and header.kind != RESPONSE else missing


def is_whole(data, at):
    try:
        read_container(data, at)
    except Refused:
        return False
    return True


def filling(reader, payload):
    """An answer that must fill its payload (3)."""
    value, after = reader(payload)
    expect_end(payload, after)
    return value


def handles(payload):
    """Handle arrays and storage IDs."""
    return filling(lambda data: read_array(UINT32, data, 0), payload)


def object_count(payload):
    return filling(lambda data: read_number(data, 0, 4), payload)


def storage_info(payload):
    return filling(lambda data: read_row(STORAGE, data), payload)


def device_info(payload):
    return read_row(DEVICE, payload)[0]


def object_info(payload):
    return read_row(OBJECT, payload)[0]
