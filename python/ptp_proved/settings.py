"""Settings kept from reel to reel: a row of entries, a property's value each, for a camera of one serial or for any."""

from __future__ import annotations

import enum
from dataclasses import dataclass
from typing import Iterator, Optional, Sequence

from ptp_proved import archive
from ptp_proved.value import PtpValue, text_of, units_of

FOR_ANY, FOR_ONE = 16, 17


class Edition(enum.Enum):
    """Which entries a row may have: the first edition only those for any camera, the second also those for the camera of one serial."""

    One = 1
    Two = 2

    @property
    def is_second(self) -> bool:
        return self is Edition.Two


@dataclass(frozen=True)
class Setting:
    """An entry as it lies in its row. `serial` is None in an entry for any camera."""

    start: int
    bytes: archive.Raw
    vendor: int
    property: int
    serial: Optional[str]
    value: PtpValue


@dataclass(frozen=True)
class Kept:
    """What is kept of a property: whether it is for the camera of the serial that was asked for, the value, and where it begins in the row."""

    is_own: bool
    value: PtpValue
    start: int


class Settings:
    """A row that was read whole: one entry for each key, at most 256."""

    def __init__(self, edition: Edition, row: archive.Bytes = b"") -> None:
        """No bytes are an empty row. Refusals, entry by entry: END, EDITION, RECORD, END; END and TEXT of the fields; TRAIL; RECORD; FULL."""
        self.edition, self.bytes = edition, bytes(row)
        self._count = archive.call("ptp_settings_check", edition.is_second, self.bytes)

    def __len__(self) -> int:
        return self._count

    def __iter__(self) -> Iterator[Setting]:
        at = 0
        for _ in range(self._count):
            setting = self.entry(at)
            yield setting
            at += len(setting.bytes)

    def entry(self, at: int) -> Setting:
        """The entry that starts at a place. Refusals: those of one entry."""
        row = self.bytes
        numbers = archive.numbers_of_entry(self.edition.is_second, row, at)
        after, kind, vendor, code, serial, count, data_type, start, length = numbers
        value = PtpValue.read(data_type, row[start:start + length])[0]
        return Setting(at, row[at:after], vendor, code, text_of(row, serial, count) if kind == FOR_ONE else None, value)

    def find(self, vendor: int, code: int, serial: str = "") -> Optional[Kept]:
        """What is kept of a property: in edition 2 for the camera of this serial, where there is such an entry; else for any."""
        return self.find_units(vendor, code, units_of(serial))

    def find_units(self, vendor: int, code: int, serial: Sequence[int]) -> Optional[Kept]:
        out = (archive.NUMBER * 4)()
        if archive.call("ptp_settings_find", self.edition.is_second, self.bytes, vendor, code, archive.shorts(serial), out) == 0:
            return None
        kind, data_type, start, length = out
        return Kept(kind == FOR_ONE, PtpValue.read(data_type, self.bytes[start:start + length])[0], start)

    def store(self, entry: archive.Bytes) -> "Settings":
        """The row with this entry in place of the one that has its key, or last. Refusals: the entry's own, TRAIL also where bytes follow it; FULL."""
        made = archive.written("ptp_settings_store", len(self.bytes) + len(entry), self.edition.is_second, self.bytes, bytes(entry))
        return Settings(self.edition, made)

    def remove(self, vendor: int, code: int, serial: Optional[str] = None) -> "Settings":
        """The row without the entry of this key, for the camera of a serial or for any; the row itself where none is held."""
        units = archive.shorts(units_of(serial or ""))
        made = archive.written("ptp_settings_remove", len(self.bytes), self.edition.is_second, self.bytes, vendor, code, serial is not None, units)
        return Settings(self.edition, made)


def write_entry(vendor: int, code: int, serial: Optional[str], data_type: int, value: archive.Bytes) -> bytes:
    """The bytes of an entry, for `Settings.store`. Refusals: TEXT and COUNT of the serial; RECORD where the value's bytes are not one tidy value."""
    units = archive.shorts(units_of(serial or ""))
    room = 14 + 3 + 2 * len(units) + len(value)
    return archive.written("ptp_settings_write", room, vendor, code, data_type, bytes(value), serial is not None, units)
