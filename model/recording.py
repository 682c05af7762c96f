"""Records ("Recording" of document 01): u32 length of the whole record, u16 kind, body."""

from collections import namedtuple

from model.containers import read_container
from model.refusals import LONG, RECORD, TRAIL, Refused, refuse_if
from model.values import read_number, take

RECEIVED, SENT, NOTE = 1, 2, 3
RECORD_HEADER = 6
MOST_BODY = 65_000

Record = namedtuple("Record", "kind start length after")


# What a copy is, and the notes that it leaves out: how many, and their bytes with the six of each header.
Copy = namedtuple("Copy", "data records left")


def check_kind(kind, highest):
    refuse_if(not RECEIVED <= kind <= highest, RECORD)


def check_body(kind, body):
    """A container in its own order, 6, and 3 for a body longer than announced. A note is any bytes."""
    if kind == NOTE:
        return
    header, start = read_container(body)
    refuse_if(start + header.payload_length < len(body), TRAIL)


def read_record(data, at=0, most=MOST_BODY):
    """1 for six bytes, 13, 14, 1 for the body, then the body's own refusals. Places count in the data."""
    length, kind_at = read_number(data, at, 4)
    kind, start = read_number(data, kind_at, 2)
    refuse_if(length < RECORD_HEADER, RECORD)
    check_kind(kind, NOTE)
    refuse_if(length - RECORD_HEADER > most, LONG)
    body, after = take(data, start, length - RECORD_HEADER, start)
    try:
        check_body(kind, body)
    except Refused as refused:
        raise refused.seen_from(-start) from None
    return Record(kind, start, len(body), after)


def write_record(kind, body):
    """By the same rules: 13, 14, the container's. A note is no more written."""
    check_kind(kind, SENT)
    refuse_if(len(body) > MOST_BODY, LONG)
    check_body(kind, body)
    return (RECORD_HEADER + len(body)).to_bytes(4, "little") + kind.to_bytes(2, "little") + body


def read_recording(data):
    """The records from end to end; or the first refusal, the place in the data."""
    records, at = [], 0
    while at < len(data):
        records.append(read_record(data, at))
        at = records[-1].after
    return records


def copied(data):
    """The recording without its notes."""
    kept, left = [], []
    for record in read_recording(data):
        (left if record.kind == NOTE else kept).append(data[record.start - RECORD_HEADER:record.after])
    return Copy(b"".join(kept), len(left), sum(map(len, left)))
