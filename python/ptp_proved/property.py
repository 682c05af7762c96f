"""A property's description: its values, its list, the newer value, the tidy spelling."""

from __future__ import annotations

import enum
from dataclasses import dataclass
from typing import Iterator, List, Optional, Tuple, Union

from ptp_proved import archive
from ptp_proved.refusal import PLACE, Refusal
from ptp_proved.value import INTEGERS, TYPE_NAMES, PtpValue, items_of, list_numbers, said_of, width


class PropLayout(enum.Enum):
    """Which layout a description has. The caller names it: some bytes fit both, and nothing guesses."""

    Crate = "crate"  # with the IsEnable byte behind GetSet
    Book = "book"  # PIMA 15740's, without it

    @property
    def is_book(self) -> bool:
        return self is PropLayout.Book


@dataclass(frozen=True)
class Range:
    """The values from the least to the greatest, in steps."""

    minValue: PtpValue
    maxValue: PtpValue
    step: PtpValue


@dataclass(frozen=True)
class Enumeration:
    """The values of a list."""

    array: Tuple[PtpValue, ...]


PtpFormData = Union[None, Range, Enumeration]

ENABLE_ABSENT = 256
NUMBERS = 16
RANGE, LIST = 1, 2
# Bytes of the widest integer that one word holds.
LONGEST_WORD = 8


@dataclass(frozen=True)
class PtpPropInfo:
    """What a camera says of a property. `IsEnable` is None in every reading of the book's layout, and in no other."""

    PropertyCode: int
    DataType: int
    GetSet: int
    IsEnable: Optional[int]
    FactoryDefault: PtpValue
    Current: PtpValue
    Form: PtpFormData

    @staticmethod
    def decode(layout: PropLayout, data: archive.Bytes) -> "Tuple[PtpPropInfo, int]":
        """The description that begins the bytes, and how many it takes. Refusals: END, TEXT."""
        data = bytes(data)
        numbers = archive.numbers("ptp_prop_info", NUMBERS, layout.is_book, data)
        taken, code, data_type, get_set, enable = numbers[:5]
        default, current = (part(data, data_type, *numbers[at:at + 2]) for at in (5, 7))
        form = form_of(data, data_type, numbers[9:])
        return PtpPropInfo(code, data_type, get_set, None if enable == ENABLE_ABSENT else enable, default, current, form), taken

    @staticmethod
    def nth(layout: PropLayout, data: archive.Bytes, n: int) -> PtpValue:
        """Value n, from 0, of the description's list, which each call reads anew. Refusals: those of reading it, then PLACE."""
        info, _ = PtpPropInfo.decode(layout, data)
        if not isinstance(info.Form, Enumeration):
            raise Refusal(PLACE)
        start, length = list_value(layout, data, n)
        return part(bytes(data), info.DataType, start, length)


def part(data: bytes, code: int, start: int, length: int) -> PtpValue:
    """The value whose bytes the library has found there."""
    return PtpValue.read(code, data[start:start + length])[0]


def form_of(data: bytes, code: int, numbers: List[int]) -> PtpFormData:
    """The form's number, then three parts, or a list's bytes and count."""
    if numbers[0] == RANGE:
        return Range(*(part(data, code, *numbers[at:at + 2]) for at in (1, 3, 5)))
    if numbers[0] == LIST:
        return Enumeration(list_of(data, code, numbers[1], numbers[3]))
    return None


def list_of(data: bytes, code: int, start: int, count: int) -> Tuple[PtpValue, ...]:
    """All values of a list that the library has found there. Those without bytes are all alike, integers lie there as an array's items do; strings
    and arrays are gone through."""
    if code not in TYPE_NAMES:
        return (PtpValue(code, None, b""),) * count
    if code not in INTEGERS.values():
        return tuple(stepped(data, code, start, count))
    size = width(code)
    numbers = list_numbers(data, start, code, count) if size <= LONGEST_WORD else items_of(code, data, start, count)
    return tuple(PtpValue(code, number, data[start + size * k:start + size * (k + 1)]) for k, number in enumerate(numbers))


def stepped(data: bytes, code: int, at: int, left: int) -> Iterator[PtpValue]:
    """A list's values, one after the other, from a place on."""
    while True:
        found = next_value(data, code, at, left)
        if found is None:
            return
        value, at, left = found
        yield value


def next_value(data: archive.Bytes, code: int, at: int, left: int) -> "Optional[Tuple[PtpValue, int, int]]":
    """The next of a list's values, from a place on with so many left; the place after it, and how many are left then. None where the list has ended,
    and where no whole value stands there."""
    data = bytes(data)
    out = archive.array(archive.NUMBER, [0] * 5)
    if archive.call("ptp_next_value", data, code, at, left, out) == 0:
        return None
    after, still, kind, first, second = out
    return PtpValue(code, said_of(code, data, kind, first, second), data[at:after]), after, still


def list_value(layout: PropLayout, data: archive.Bytes, n: int) -> Tuple[int, int]:
    """Where value n of the description's list begins, and how long it is. Refusals: those of reading the description; PLACE."""
    _, start, length = archive.numbers("ptp_list_value", 3, layout.is_book, bytes(data), n)
    return start, length


def prop_spans(layout: PropLayout, data: archive.Bytes) -> List[Tuple[str, int, int]]:
    """Of each part of the description that begins the bytes its name, its place and its length in bytes. Refusals: END, TEXT."""
    numbers = archive.numbers("ptp_prop_info", NUMBERS, layout.is_book, bytes(data))
    rows = [("PropertyCode", 0, 2), ("DataType", 2, 2), ("GetSet", 4, 1)]
    if numbers[4] != ENABLE_ABSENT:
        rows.append(("IsEnable", 5, 1))
    rows += [("FactoryDefault", numbers[5], numbers[6]), ("Current", numbers[7], numbers[8]), ("Form", numbers[7] + numbers[8], 1)]
    if numbers[9] == RANGE:
        rows += [(name, numbers[at], numbers[at + 1]) for name, at in (("minValue", 10), ("maxValue", 12), ("step", 14))]
    if numbers[9] == LIST:
        rows.append(("array", numbers[10] - 2, numbers[11] + 2))
    return rows


@dataclass(frozen=True)
class Newer:
    """The newer value's bytes, where they lie, and whether they are the payload's or the description's."""

    of_payload: bool
    start: int
    bytes: archive.Raw


def newer_value(layout: PropLayout, description: archive.Bytes, payload: archive.Bytes) -> Newer:
    """The whole payload where it is exactly one value of the description's type, else the description's current value; an empty part of the
    description where that would be refused. It refuses nothing itself."""
    description, payload = bytes(description), bytes(payload)
    of_payload, start, length = archive.numbers("ptp_newer_value", 3, layout.is_book, description, payload)
    return Newer(of_payload == 1, start, (payload if of_payload else description)[start:start + length])


def tidy_property(layout: PropLayout, data: archive.Bytes) -> bytes:
    """The tidy spelling of the description that begins the bytes. Refusals: END, TEXT."""
    return archive.written("ptp_tidy_property", len(data), layout.is_book, bytes(data))
