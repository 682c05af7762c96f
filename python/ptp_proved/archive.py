"""Calls of the library: a slice is handed over as one argument, and an answer below 0 is raised as a refusal.

Why each call is sound: a pointer and the length behind it are those of one Python object, which lives until the call returns; what is lent for
writing is a buffer that was made for this call, or a list of the caller's own; and each function is proved to read and write within what it is lent."""

from __future__ import annotations

import ctypes
from typing import Any, Iterable, List, Sequence, Tuple, Union

from ptp_proved.library import functions
from ptp_proved.refusal import END, FARTHEST, ROOM, Refusal

Bytes = Union[bytes, bytearray, memoryview]
# The type of a field that is called `bytes`.
Raw = bytes

FUNCTIONS = functions()
LIMITS = {"u8": 0xFF, "u16": 0xFFFF, "u32": 0xFFFFFFFF, "u64": 0xFFFFFFFFFFFFFFFF, "usize": 0xFFFFFFFFFFFFFFFF, "bool": 1}
FIRST_ROOM = 1 << 16
NUMBER = ctypes.c_uint64


def handed(kinds: Sequence[str], values: Sequence[Any]) -> Iterable[Any]:
    """Each slice with its length; a number must be one that its type has."""
    for kind, value in zip(kinds, values):
        if kind in LIMITS and not 0 <= value <= LIMITS[kind]:
            raise OverflowError(f"{value} is no {kind}")
        yield value
        if kind.endswith("]"):
            yield len(value)


def call(name: str, *values: Any) -> int:
    """How many numbers or bytes were given."""
    function, kinds = FUNCTIONS[name]
    answer = function(*handed(kinds, values))
    if answer < 0:
        raise Refusal.of(answer)
    return answer


def numbers(name: str, count: int, *values: Any) -> List[int]:
    """The numbers of an answer, of which there are so many."""
    out = (ctypes.c_uint64 * count)()
    call(name, *values, out)
    return list(out)


def call_at(name: str, at: int, *values: Any) -> int:
    """The same of what stands at a place. One that is farther than a refusal tells is the refusal's own."""
    try:
        return call(name, *values)
    except Refusal as refusal:
        if refusal.number == END and refusal.place == FARTHEST:
            raise Refusal(END, at) from None
        raise


def numbers_at(name: str, count: int, data: bytes, at: int, *values: Any) -> List[int]:
    """The numbers of an answer about what stands at a place."""
    out = (ctypes.c_uint64 * count)()
    call_at(name, at, data, at, *values, out)
    return list(out)


def written(name: str, room: int, *values: Any) -> bytes:
    """The bytes that a writer gives, which has so much room."""
    out = ctypes.create_string_buffer(room)
    return ctypes.string_at(out, call(name, *values, out))


def grown(name: str, *values: Any, ends: int) -> Tuple[bytes, List[int]]:
    """Bytes and the end of each part of them, of a writer whose need is not known before: it is asked with more room until it has enough."""
    room, told = FIRST_ROOM, (ctypes.c_uint32 * ends)()
    while True:
        out = ctypes.create_string_buffer(room)
        try:
            count = call(name, *values, out, told)
            return ctypes.string_at(out, count), list(told)
        except Refusal as refusal:
            if refusal.number != ROOM:
                raise
            room *= 4


def shorts(row: Iterable[int]) -> Any:
    """A lent list of u16."""
    return array(ctypes.c_uint16, row)


def halves(row: Iterable[int]) -> Any:
    """A lent list of u32."""
    return array(ctypes.c_uint32, row)


def array(kind: Any, row: Iterable[int]) -> Any:
    items = list(row)
    most = (1 << 8 * ctypes.sizeof(kind)) - 1
    for item in items:
        if not 0 <= item <= most:
            raise OverflowError(f"{item} is no number of {8 * ctypes.sizeof(kind)} bits")
    return (kind * len(items))(*items)


def lent(data: Bytes) -> Any:
    """A buffer of the caller's bytes that can be written."""
    return ctypes.create_string_buffer(bytes(data), len(data))


def numbers_of_entry(second: bool, row: bytes, at: int) -> List[int]:
    """Of the entry of a row at a place, whose edition comes first among the words."""
    return numbers("ptp_settings_entry", 9, second, row, at)
