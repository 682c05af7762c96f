"""The camera on the network (request 12 of document 02): packets of PTP/IP, little-endian, and one transaction's containers as packets and back.

A packet is a u32 length of the whole packet, a u32 kind, the kind's fields, and for every kind but start data the bytes behind them: parameters
or data.
"""

import re
from collections import namedtuple

from model.containers import COMMAND, DATA, EVENT, MOST_PARAMETERS, MOST_PAYLOAD, RESPONSE, read_container, write_container
from model.refusals import COUNT, FIELDS, PACKET, TID, TRANSACTION, refuse_if
from model.values import read_number, take

REQUEST, ANSWER, START_DATA, SOME_DATA, END_DATA = 6, 7, 9, 10, 12
HEAD = 8
PARAMETER = 4
# What stands behind a packet's head, by its kind: the widths of its fields.
WIDTHS = {
    REQUEST: {"phase": 4, "code": 2, "number": 4},
    ANSWER: {"code": 2, "number": 4},
    START_DATA: {"number": 4, "total": 8},
    SOME_DATA: {"number": 4},
    END_DATA: {"number": 4},
}
# The data phase of a request: none or from the camera, and to the camera.
FROM_CAMERA, TO_CAMERA = 1, 2
DIRECTIONS = {"in": FROM_CAMERA, "out": TO_CAMERA}
# A letter for each kind, so that a transaction is a pattern of letters.
CONTAINERS = {COMMAND: "C", DATA: "D", RESPONSE: "R", EVENT: "E"}
PACKETS = {REQUEST: "Q", START_DATA: "S", SOME_DATA: "D", END_DATA: "E", ANSWER: "A"}

# A packet: its fields by name, and where the bytes behind them start and end; the packet ends there too.
Packet = namedtuple("Packet", "kind fields start after")
Container = namedtuple("Container", "kind code number body")


def has_whole_fields(kind, length):
    """Start data has no bytes behind its fields, data any, a request and a response whole parameters."""
    over = length - HEAD - sum(WIDTHS[kind].values())
    if kind == START_DATA:
        return over == 0
    return over >= 0 and (kind in (SOME_DATA, END_DATA) or over % PARAMETER == 0)


def read_packet(data, at=0):
    """1 for eight bytes, 20, 21, and 1 for the rest as a whole."""
    length, kind_at = read_number(data, at, 4)
    kind, start = read_number(data, kind_at, 4)
    refuse_if(kind not in WIDTHS, PACKET)
    refuse_if(not has_whole_fields(kind, length), FIELDS)
    _, after = take(data, start, length - HEAD, start)
    fields = {}
    for name, width in WIDTHS[kind].items():
        fields[name], start = read_number(data, start, width)
    return Packet(kind, fields, start, after)


def container_items(data):
    at = 0
    while at < len(data):
        header, start = read_container(data, at)
        at = start + header.payload_length
        yield Container(header.kind, header.code, header.number, data[start:at])


def packets(data):
    at = 0
    while at < len(data):
        packet = read_packet(data, at)
        at = packet.after
        yield packet


def are_parameters(body):
    return len(body) <= MOST_PARAMETERS * PARAMETER and len(body) % PARAMETER == 0


def is_transaction(pattern, letters, first, last):
    """The row of items as the pattern has it, a letter each, and parameters in the first and the last."""
    return re.fullmatch(pattern, letters) is not None and are_parameters(first) and are_parameters(last)


def one_number(numbers):
    refuse_if(len(set(numbers)) > 1, TID)
    return numbers[0]


def packet_bytes(kind, body=b"", **values):
    fields = b"".join(values[name].to_bytes(width, "little") for name, width in WIDTHS[kind].items())
    length = HEAD + len(fields) + len(body)
    return length.to_bytes(4, "little") + kind.to_bytes(4, "little") + fields + body


def to_network(direction, data):
    """Each container's refusals in their order; then 22, 7."""
    items = list(container_items(data))
    letters = "".join(CONTAINERS[item.kind] for item in items)
    refuse_if(not items or not is_transaction("CD?R", letters, items[0].body, items[-1].body), TRANSACTION)
    command, *loads, response = items
    refuse_if(any(load.code != command.code for load in loads), TRANSACTION)
    number = one_number([item.number for item in items])
    phase = DIRECTIONS[direction] if loads else FROM_CAMERA
    sent = [packet_bytes(REQUEST, command.body, phase=phase, code=command.code, number=number)]
    for load in loads:
        sent += [packet_bytes(START_DATA, number=number, total=len(load.body)), packet_bytes(END_DATA, load.body, number=number)]
    return b"".join(sent + [packet_bytes(ANSWER, response.body, code=response.code, number=number)])


def from_network(data):
    """Each packet's refusals in their order; then 22, 21 for a joined length other than the announced, 7, 10."""
    items = list(packets(data))
    bodies = [data[item.start:item.after] for item in items]
    letters = "".join(PACKETS[item.kind] for item in items)
    refuse_if(not items or not is_transaction("Q(SD*E)?A", letters, bodies[0], bodies[-1]), TRANSACTION)
    load = b"".join(bodies[1:-1])
    refuse_if(any(item.fields["total"] != len(load) for item in items if item.kind == START_DATA), FIELDS)
    number = one_number([item.fields["number"] for item in items])
    refuse_if(len(load) > MOST_PAYLOAD, COUNT)
    request, *between, answer = items
    code = request.fields["code"]
    containers = [write_container(COMMAND, code, number, bodies[0])]
    if between:
        containers.append(write_container(DATA, code, number, load))
    return b"".join(containers + [write_container(RESPONSE, answer.fields["code"], number, bodies[-1])])
