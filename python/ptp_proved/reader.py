"""Single fields, read one after the other."""

from __future__ import annotations

from typing import Tuple

from ptp_proved import archive
from ptp_proved.refusal import TRAIL, Refusal
from ptp_proved.value import ARRAY, PtpValue, Said, read_text


class PtpReader:
    """Bytes, and a place in them that moves past each field that is read. A refused field leaves the place.

    Each integer is refused by END; an array too, which is told of its count, also where an item is cut; a string by END and TEXT."""

    def __init__(self, data: archive.Bytes, place: int = 0) -> None:
        self._data, self.place = bytes(data), place

    def read_ptp_i8(self) -> int:
        return self._integer(1)

    def read_ptp_i8_vec(self) -> Tuple[int, ...]:
        return self._integers(1)

    def read_ptp_u8(self) -> int:
        return self._integer(2)

    def read_ptp_u8_vec(self) -> Tuple[int, ...]:
        return self._integers(2)

    def read_ptp_i16(self) -> int:
        return self._integer(3)

    def read_ptp_i16_vec(self) -> Tuple[int, ...]:
        return self._integers(3)

    def read_ptp_u16(self) -> int:
        return self._integer(4)

    def read_ptp_u16_vec(self) -> Tuple[int, ...]:
        return self._integers(4)

    def read_ptp_i32(self) -> int:
        return self._integer(5)

    def read_ptp_i32_vec(self) -> Tuple[int, ...]:
        return self._integers(5)

    def read_ptp_u32(self) -> int:
        return self._integer(6)

    def read_ptp_u32_vec(self) -> Tuple[int, ...]:
        return self._integers(6)

    def read_ptp_i64(self) -> int:
        return self._integer(7)

    def read_ptp_i64_vec(self) -> Tuple[int, ...]:
        return self._integers(7)

    def read_ptp_u64(self) -> int:
        return self._integer(8)

    def read_ptp_u64_vec(self) -> Tuple[int, ...]:
        return self._integers(8)

    def read_ptp_i128(self) -> int:
        return self._integer(9)

    def read_ptp_i128_vec(self) -> Tuple[int, ...]:
        return self._integers(9)

    def read_ptp_u128(self) -> int:
        return self._integer(10)

    def read_ptp_u128_vec(self) -> Tuple[int, ...]:
        return self._integers(10)

    def read_ptp_str(self) -> str:
        text, self.place = read_text(self._data, self.place)
        return text

    def read_ptp_value(self, code: int) -> PtpValue:
        """A value of the type with its bytes. Refusals: END, TEXT."""
        value, self.place = PtpValue.read(code, self._data, self.place)
        return value

    def read_type(self, code: int) -> Said:
        """What a value of the type says. Refusals: END, TEXT."""
        return self.read_ptp_value(code).value

    def expect_end(self) -> None:
        """Refusal: TRAIL where bytes follow."""
        if self.place < len(self._data):
            raise Refusal(TRAIL)

    def _integer(self, code: int) -> int:
        number = self.read_type(code)
        assert isinstance(number, int)
        return number

    def _integers(self, code: int) -> Tuple[int, ...]:
        numbers = self.read_type(ARRAY + code)
        assert isinstance(numbers, tuple)
        return numbers
