"""Containers, the records of a recording, its listing, its copy without notes, and what is mended of it."""

from __future__ import annotations

import ctypes
import enum
from dataclasses import dataclass
from typing import Iterator, Optional, Tuple

from ptp_proved import archive
from ptp_proved.session import Made

LONGEST_LINE = 128
HEADING_ROOM = 64
# A record has six bytes or more, and a dropped byte or more stands between two that are kept apart.
SHORTEST_KEPT = 6


class PtpContainerType(enum.IntEnum):
    """A container's kind."""

    Command = 1
    Data = 2
    Response = 3
    Event = 4


class RecordKind(enum.IntEnum):
    """Which way a record's container went, or that the record is a note: those are read, and no more written."""

    FromCamera = 1
    ToCamera = 2
    Note = 3


@dataclass(frozen=True)
class PtpContainer:
    """A container: its kind, code, transaction number and payload."""

    kind: PtpContainerType
    code: int
    tid: int
    payload: bytes

    def encode(self) -> bytes:
        """Refusal: COUNT."""
        return write_container(self.kind, self.code, self.tid, self.payload)


@dataclass(frozen=True)
class PtpRecord:
    """A record; a note has no container, and any other record's container is its whole body."""

    kind: RecordKind
    body: bytes
    container: Optional[PtpContainer]


def read_container(data: archive.Bytes, at: int = 0) -> Tuple[PtpContainer, int]:
    """The container at a place, an event's too, and the place after it. Refusals: END for six bytes, KIND, END for twelve, LENGTH, SIZE."""
    data = bytes(data)
    after, kind, code, tid, start, length = archive.numbers_at("ptp_read_container", 6, data, at)
    return PtpContainer(PtpContainerType(kind), code, tid, data[start:start + length]), after


def write_container(kind: int, code: int, tid: int, payload: archive.Bytes) -> bytes:
    """A container by numbers. Refusals: KIND, COUNT."""
    return archive.written("ptp_write_container", len(payload) + 12, kind, code, tid, bytes(payload))


def read_record(data: archive.Bytes) -> Tuple[PtpRecord, int]:
    """The record that begins the bytes, and how many it takes. Refusals: END for six bytes, RECORD, LONG, END for the body; of its container END,
    KIND, END, LENGTH, SIZE, TRAIL."""
    data = bytes(data)
    numbers = archive.numbers("ptp_read_record", 9, data)
    taken, kind, start, length, container, code, tid, payload, payload_length = numbers
    held = PtpContainer(PtpContainerType(container), code, tid, data[payload:payload + payload_length]) if container else None
    return PtpRecord(RecordKind(kind), data[start:start + length], held), taken


def read_recording(data: archive.Bytes) -> int:
    """How many records a recording has, from its first byte to its last. Refusals: those of the first refused record, END by its place in the bytes."""
    return archive.numbers("ptp_read_recording", 1, bytes(data))[0]


def records(data: archive.Bytes) -> Iterator[Tuple[int, PtpRecord]]:
    """The records of a whole recording, each with its place. Refusals: those of `read_recording`, before the first is given."""
    data, at = bytes(data), 0
    for _ in range(read_recording(data)):
        record, taken = read_record(data[at:at + 6 + 65_000])
        yield at, record
        at += taken


def write_record(kind: int, body: archive.Bytes) -> bytes:
    """A record of kind 1 or 2 whose body is one container. Refusals: RECORD, LONG; of the container END, KIND, END, LENGTH, SIZE, TRAIL."""
    return archive.written("ptp_write_record", len(body) + 6, kind, bytes(body))


class Recorder:
    """A recording that grows by what was sent and received."""

    def __init__(self) -> None:
        self._held = bytearray()

    @property
    def bytes(self) -> archive.Raw:
        """All records, end to end."""
        return bytes(self._held)

    def sent(self, made: Made) -> None:
        """A record of the Command, and one of its Data. Refusal: LONG; then neither is kept."""
        added = write_record(RecordKind.ToCamera, made.command)
        self._held += added + (write_record(RecordKind.ToCamera, made.data) if made.data else b"")

    def received(self, containers: archive.Bytes) -> None:
        """Containers that were received, end to end: a record of each. Refusals: those of the first that is refused; then none is kept."""
        containers, at, added = bytes(containers), 0, b""
        while at < len(containers):
            _, after = read_container(containers, at)
            added += write_record(RecordKind.FromCamera, containers[at:after])
            at = after
        self._held += added


@dataclass(frozen=True)
class Copied:
    """A recording without its notes, and how many records and bytes, headers included, were left out."""

    bytes: archive.Raw
    left_records: int
    left_bytes: int


def copy_recording(data: archive.Bytes) -> Copied:
    """Refusals: those of the first refused record, END by its place in the bytes."""
    out, left = ctypes.create_string_buffer(len(data)), archive.array(archive.NUMBER, [0, 0])
    count = archive.call("ptp_copy_recording", bytes(data), out, left)
    return Copied(ctypes.string_at(out, count), *left)


@dataclass(frozen=True)
class Mended:
    """What is kept of a damaged recording, and the dropped stretches in rising order, each by its start in it and its length."""

    bytes: archive.Raw
    dropped: Tuple[Tuple[int, int], ...]


def mend_recording(data: archive.Bytes) -> Mended:
    """Every record that can still be read, from the front, is kept as it stands, notes too; where none stands, one byte is dropped."""
    most = len(data) // (SHORTEST_KEPT + 1) + 1
    starts, lengths = ((archive.NUMBER * most)() for _ in range(2))
    out, counts = ctypes.create_string_buffer(len(data)), (archive.NUMBER * 1)()
    count = archive.call("ptp_mend_recording", bytes(data), out, starts, lengths, counts)
    stretches = counts[0]
    return Mended(ctypes.string_at(out, count), tuple(zip(starts[:stretches], lengths[:stretches])))


@dataclass(frozen=True)
class Tally:
    """Where a listing stands: the place of the next record, and how many whole records stand before it."""

    place: int = 0
    records: int = 0


@dataclass(frozen=True)
class Listed:
    """What was listed of a window: the lines, how many bytes of the window they are of, where the listing stands now, and whether a refused record
    ended it."""

    text: bytes
    used: int
    tally: Tally
    stopped: bool


class Lister:
    """Lists window after window into one output, which it keeps."""

    def __init__(self, room: int = 1 << 20) -> None:
        self._out, self._counts = ctypes.create_string_buffer(room), (archive.NUMBER * 4)()

    def list_window(self, window: archive.Bytes, last: bool, tally: Tally) -> Listed:
        """The lines of the whole records of a window, as many as have room. `last` says that the recording ends with the window."""
        count = archive.call("ptp_list_window", bytes(window), last, tally.place, tally.records, self._out, self._counts)
        used, place, listed, stopped = self._counts
        return Listed(ctypes.string_at(self._out, count), used, Tally(place, listed), stopped == 1)


def write_heading() -> bytes:
    """The listing's first line."""
    return archive.written("ptp_write_heading", HEADING_ROOM)


def write_ending(tally: Tally) -> bytes:
    """The listing's last line."""
    return archive.written("ptp_write_ending", LONGEST_LINE, tally.records, tally.place)


def list_recording(data: archive.Bytes) -> Iterator[bytes]:
    """The whole listing of a recording, piece by piece: a heading, a line a record, the last line."""
    rest, tally, lister = bytes(data), Tally(), Lister()
    yield write_heading()
    while True:
        listed = lister.list_window(rest, True, tally)
        yield listed.text
        rest, tally = rest[listed.used:], listed.tally
        if listed.stopped or not rest:
            break
    yield write_ending(tally)
