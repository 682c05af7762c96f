"""Commands of a session, and the search for an answer."""

from __future__ import annotations

import ctypes
from dataclasses import dataclass
from typing import Optional, Sequence, Tuple, Union

from ptp_proved import archive
from ptp_proved.code import COMMANDS
from ptp_proved.property import PropLayout
from ptp_proved.value import UINT32, items_of

HEADER = 12
OK = 0x2001
ROOTS, ALL = 0xFFFFFFFF, 0


@dataclass(frozen=True)
class Made:
    """A command that was made: the number that it was sent with, which its answer carries, and its bytes: the Command, one transfer and one record,
    and behind it its Data, another of each, empty where it has none."""

    number: int
    command: bytes
    data: bytes

    @property
    def bytes(self) -> archive.Raw:
        return self.command + self.data


class Session:
    """Counts a session's transaction numbers. Its state is one number: 0 where it is closed, as a fresh one is, else the next command's."""

    def __init__(self, number: int = 0) -> None:
        self._number = ctypes.c_uint32(number)

    @property
    def number(self) -> int:
        """The number of the next command, unless that is OpenSession, which has 0; 0 where the session is closed."""
        return self._number.value

    def command(self, code: int, params: Sequence[int] = (), data: Optional[archive.Bytes] = None) -> Made:
        """A Command container, and where data is given the Data container behind it. Refusal: COUNT, which leaves the state."""
        sent, payload = archive.halves(params), b"" if data is None else bytes(data)
        room = 2 * HEADER + 4 * len(sent) + len(payload)
        return self._made("ptp_command", room, (), (code, sent, payload, data is not None))

    def set_value(self, layout: PropLayout, description: archive.Bytes, code: int, value: archive.Bytes) -> Made:
        """SetDevicePropValue of a value that a property's description allows, in its tidy spelling. `code` is the value's type, and the value fills its
        bytes. Refusals: END and TEXT of the description; TYPE; END, TEXT and TRAIL of the value; VALUE; COUNT. They leave the state."""
        room = 2 * HEADER + 4 + len(value)
        return self._made("ptp_set_value", room, (layout.is_book,), (bytes(description), code, bytes(value)))

    def _made(self, name: str, room: int, before: Tuple[object, ...], behind: Tuple[object, ...]) -> Made:
        end = ctypes.c_size_t(0)
        made = archive.written(name, room, *before, self._number, end, *behind)
        return Made(int.from_bytes(made[8:12], "little"), made[:end.value], made[end.value:])

    def get_device_info(self) -> Made:
        """`PtpDeviceInfo.decode` reads the payload."""
        return self.command(COMMANDS["GetDeviceInfo"], (0, 0, 0))

    def open_session(self) -> Made:
        """Opens session 3."""
        return self.command(COMMANDS["OpenSession"], (3, 0, 0))

    def close_session(self) -> Made:
        return self.command(COMMANDS["CloseSession"])

    def get_storageids(self) -> Made:
        """`storage_ids` reads the payload."""
        return self.command(COMMANDS["GetStorageIDs"])

    def get_storage_info(self, storage_id: int) -> Made:
        """`storage_info` reads the payload."""
        return self.command(COMMANDS["GetStorageInfo"], (storage_id,))

    def get_numobjects(self, storage_id: int, handle_id: int, filter: Optional[int] = None) -> Made:
        """How many objects stand in a folder: `object_count` reads the payload."""
        return self.command(COMMANDS["GetNumObjects"], (storage_id, filter or 0, handle_id))

    def get_objecthandles(self, storage_id: int, handle_id: int, filter: Optional[int] = None) -> Made:
        """The handles of those in a folder: `object_handles` reads the payload."""
        return self.command(COMMANDS["GetObjectHandles"], (storage_id, filter or 0, handle_id))

    def get_numobjects_all(self, storage_id: int, filter: Optional[int] = None) -> Made:
        return self.get_numobjects(storage_id, ALL, filter)

    def get_numobjects_roots(self, storage_id: int, filter: Optional[int] = None) -> Made:
        return self.get_numobjects(storage_id, ROOTS, filter)

    def get_objecthandles_all(self, storage_id: int, filter: Optional[int] = None) -> Made:
        return self.get_objecthandles(storage_id, ALL, filter)

    def get_objecthandles_root(self, storage_id: int, filter: Optional[int] = None) -> Made:
        return self.get_objecthandles(storage_id, ROOTS, filter)

    def get_objectinfo(self, handle: int) -> Made:
        """`PtpObjectInfo.decode` reads the payload."""
        return self.command(COMMANDS["GetObjectInfo"], (handle,))

    def get_object(self, handle: int) -> Made:
        """The payload is the object."""
        return self.command(COMMANDS["GetObject"], (handle,))


@dataclass(frozen=True)
class Data:
    """Response Ok: the payload of the last Data container, and where it starts; empty and 0 without Data; and the Response's parameters."""

    start: int
    payload: bytes
    params: Tuple[int, ...] = ()


@dataclass(frozen=True)
class Response:
    """Another Response, with its code and its parameters."""

    code: int
    params: Tuple[int, ...] = ()


Answer = Union[Data, Response]
RESPONSE_NUMBERS = 6


def find_answer(containers: archive.Bytes, number: int) -> Tuple[Answer, int]:
    """The answer to the command of this number, in containers that lie end to end; and the place after it. Refusals, container by container: END,
    KIND, LENGTH, SIZE, TID; NOPHASE where the bytes end at a container's start."""
    containers = bytes(containers)
    after, code, start, length, params, count = archive.numbers("ptp_find_response", RESPONSE_NUMBERS, containers, number)
    told = items_of(UINT32, containers, params, count)
    return (Data(start, containers[start:start + length], told) if code == OK else Response(code, told)), after


def needed(containers: archive.Bytes, number: int) -> int:
    """How many bytes must follow at least before anything can be said of the answer to the command of this number; 0 where `find_answer` answers, or
    refuses with what no bytes that follow can change."""
    return archive.call("ptp_needed", bytes(containers), number)
