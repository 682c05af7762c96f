"""A property's value: its bytes, and what they say."""

from __future__ import annotations

import struct
from dataclasses import dataclass, field
from typing import Tuple, Union

from ptp_proved import archive
from ptp_proved.refusal import PLACE, Refusal

# What a value says: UNDEF is None, an array a tuple, a value of 128 bits one int.
Said = Union[None, int, str, Tuple[int, ...]]

ARRAY, STRING = 0x4000, 0xFFFF
INTEGERS = {"INT8": 1, "UINT8": 2, "INT16": 3, "UINT16": 4, "INT32": 5, "UINT32": 6, "INT64": 7, "UINT64": 8, "INT128": 9, "UINT128": 10}
UINT16, UINT32 = INTEGERS["UINT16"], INTEGERS["UINT32"]
CODES = {**INTEGERS, **{f"A{name}": ARRAY | code for name, code in INTEGERS.items()}, "STR": STRING}
TYPE_NAMES = {code: name for name, code in CODES.items()}
# What the library's second number of a value says; 0 is UNDEF.
SIGNED_KIND, UNSIGNED_KIND, WIDE_KIND, ARRAY_KIND, STRING_KIND = range(1, 6)
MOST_UNITS = 254
# An array's items as struct has them; those of 128 bits are two words.
ITEMS = {1: "b", 2: "B", 3: "h", 4: "H", 5: "i", 6: "I", 7: "q", 8: "Q"}


def width(code: int) -> int:
    """Bytes of an integer type: they stand in pairs, signed and unsigned, each pair twice as wide as the last."""
    return 1 << (code - 1) // 2


def in_twos_complement(number: int, bits: int) -> int:
    return number - (1 << bits) if number >> bits - 1 else number


def items_of(code: int, data: bytes, start: int, count: int) -> Tuple[int, ...]:
    """The items of an array of this integer type, which the library has found there."""
    if code in ITEMS:
        return struct.unpack_from(f"<{count}{ITEMS[code]}", data, start)
    ends = range(start, start + 16 * count, 16)
    return tuple(int.from_bytes(data[place:place + 16], "little", signed=code % 2 == 1) for place in ends)


def text_of(data: bytes, start: int, count: int) -> str:
    """The units that the library has found there, which pair."""
    return data[start:start + 2 * count].decode("utf-16-le")


def said_of(code: int, data: bytes, kind: int, first: int, second: int) -> Said:
    """By the numbers of an answer."""
    if kind == SIGNED_KIND:
        return in_twos_complement(first, 64)
    if kind == UNSIGNED_KIND:
        return first
    if kind == WIDE_KIND:
        number = second << 64 | first
        return in_twos_complement(number, 128) if code % 2 else number
    if kind == ARRAY_KIND:
        return items_of(code - ARRAY, data, first, second)
    return text_of(data, first, second) if kind == STRING_KIND else None


@dataclass(frozen=True)
class PtpValue:
    """A value with its type code. Two are equal where they say the same, however they are spelled."""

    data_type: int
    value: Said
    bytes: archive.Raw = field(compare=False)

    @staticmethod
    def read(code: int, data: archive.Bytes, at: int = 0) -> "Tuple[PtpValue, int]":
        """The value of a type at a place of the bytes, and the place after it. Refusals: END, TEXT."""
        data = bytes(data)
        after, kind, first, second = archive.numbers_at("ptp_value", 4, data, at, code)
        return PtpValue(code, said_of(code, data, kind, first, second), data[at:after]), after

    @staticmethod
    def of(code: int, value: Said) -> "PtpValue":
        """The value of a type that says this, in its one tidy spelling. Refusals: TEXT, COUNT; PLACE for what the type cannot say."""
        return PtpValue(code, value, encode(code, value))

    def __str__(self) -> str:
        return "undef" if self.value is None else str(self.value)


def item(data: archive.Bytes, at: int, code: int, n: int) -> PtpValue:
    """Item n, from 0, of the array at a place, by the array's type code. Refusals: PLACE for a code that is no array's; END; PLACE."""
    data = bytes(data)
    after, kind, first, second = archive.numbers_at("ptp_item", 4, data, at, code, n)
    single = code - ARRAY
    return PtpValue(single, said_of(single, data, kind, first, second), data[after - width(single):after])


def unit(data: archive.Bytes, at: int, n: int) -> int:
    """Unit n, from 0, of the string at a place. Refusals: END, TEXT; PLACE."""
    return archive.numbers_at("ptp_unit", 2, bytes(data), at, n)[1]


def list_numbers(data: archive.Bytes, at: int, code: int, count: int) -> Tuple[int, ...]:
    """So many integers of a type of 8 to 64 bits, which lie end to end from a place on. Refusals: PLACE for another type; END."""
    data = bytes(data)
    out = (archive.NUMBER * min(count, len(data)))()
    given = archive.call_at("ptp_list_numbers", at, data, at, code, count, out)
    return tuple(in_twos_complement(number, 64) for number in out[:given]) if code % 2 else tuple(out[:given])


def units(data: archive.Bytes, at: int = 0) -> Tuple[int, ...]:
    """The units of the string at a place. Refusals: END, TEXT."""
    out = archive.shorts([0] * MOST_UNITS)
    return tuple(out[:archive.call_at("ptp_units", at, bytes(data), at, out)])


def read_text(data: archive.Bytes, at: int = 0) -> Tuple[str, int]:
    """The string at a place, and the place after it. Refusals: END, TEXT."""
    data = bytes(data)
    after, start, count = archive.numbers_at("ptp_text", 3, data, at)
    return text_of(data, start, count), after


def utf8_len(data: archive.Bytes, at: int = 0) -> Tuple[int, int]:
    """How long the string at a place is in UTF-8, and the place after it. Refusals: END, TEXT."""
    after, length = archive.numbers_at("ptp_utf8_len", 2, bytes(data), at)
    return length, after


def utf8(data: archive.Bytes, at: int = 0) -> bytes:
    """The string at a place, in UTF-8. Refusals: END, TEXT."""
    return archive.written("ptp_utf8", utf8_len(data, at)[0], bytes(data), at)


def units_of(text: str) -> Tuple[int, ...]:
    """A text's units; a lone surrogate is one, which no string may have."""
    encoded = text.encode("utf-16-le", "surrogatepass")
    return struct.unpack(f"<{len(encoded) // 2}H", encoded)


def write_text(text: str) -> bytes:
    """A string's bytes, of at most 254 units. Refusals: TEXT, without a place that means anything; COUNT."""
    return write_units(units_of(text))


def write_units(units: Tuple[int, ...]) -> bytes:
    return archive.written("ptp_write_text", 2 * len(units) + 3, archive.shorts(units))


def write_integer(code: int, number: int) -> bytes:
    """An integer of one of the types 1 to 10. Refusal: PLACE for another type, and for a number that the type has not."""
    if code in range(1, 11):
        bits = 8 * width(code)
        least, most = (-(1 << bits - 1), (1 << bits - 1) - 1) if code % 2 else (0, (1 << bits) - 1)
        if not least <= number <= most:
            raise Refusal(PLACE)
    word = number % (1 << 128)
    return archive.written("ptp_write_integer", 16, code, word % (1 << 64), word >> 64)


def write_array(code: int, items: archive.Bytes) -> bytes:
    """An array from its type code and the bytes of its items. Refusals: PLACE for a code that is no array's; COUNT where they are no whole items."""
    return archive.written("ptp_write_array", len(items) + 4, code, bytes(items))


def encode(code: int, value: Said) -> bytes:
    """The one tidy spelling of what a value says."""
    if isinstance(value, str) and code == STRING:
        return write_text(value)
    if isinstance(value, tuple) and code & ARRAY:
        return write_array(code, b"".join(write_integer(code - ARRAY, item) for item in value))
    if isinstance(value, int) and code in range(1, 11):
        return write_integer(code, value)
    if value is None and code not in TYPE_NAMES:
        return b""
    raise Refusal(PLACE)


def tidy_value(code: int, data: archive.Bytes) -> bytes:
    """The tidy spelling of the value of a type that begins the bytes. Refusals: END, TEXT."""
    return archive.written("ptp_tidy_value", len(data), code, bytes(data))
