"""The device, object and storage records, and the payloads that must be filled. Fields have the names of ptp 0.5.0."""

from __future__ import annotations

import functools
from dataclasses import dataclass, fields
from typing import Any, Dict, Iterator, List, Tuple, Type, TypeVar

from ptp_proved import archive
from ptp_proved.value import UINT16, UINT32, items_of, text_of

Read = TypeVar("Read")


@functools.lru_cache(maxsize=None)
def laid_out(kind: Any) -> Tuple[Tuple[str, str], ...]:
    """Each field's name, and its type as it is written: annotations stay text."""
    return tuple((one.name, str(one.type)) for one in fields(kind))


def filled(kind: Type[Read], data: bytes, numbers: List[int]) -> Read:
    """A record by its numbers: a string and an array have a start and a count each, every other field its number."""
    left, values = iter(numbers), []  # type: Iterator[int], List[Any]
    record: Any = kind
    for _, word in laid_out(record):
        number = next(left)
        if word == "str":
            values.append(text_of(data, number, next(left)))
        elif word == "int":
            values.append(number)
        else:
            values.append(items_of(UINT16, data, number, next(left)))
    return kind(*values)


def decoded(kind: Type[Read], name: str, count: int, data: archive.Bytes) -> Tuple[Read, int]:
    data = bytes(data)
    taken, *numbers = archive.numbers(name, count, data)
    return filled(kind, data, numbers), taken


@dataclass(frozen=True)
class PtpDeviceInfo:
    """What a camera says of itself."""

    Version: int
    VendorExID: int
    VendorExVersion: int
    VendorExtensionDesc: str
    FunctionalMode: int
    OperationsSupported: Tuple[int, ...]
    EventsSupported: Tuple[int, ...]
    DevicePropertiesSupported: Tuple[int, ...]
    CaptureFormats: Tuple[int, ...]
    ImageFormats: Tuple[int, ...]
    Manufacturer: str
    Model: str
    DeviceVersion: str
    SerialNumber: str

    @staticmethod
    def decode(data: archive.Bytes) -> "Tuple[PtpDeviceInfo, int]":
        """The record that begins the bytes, and how many it takes. Refusals: END, TEXT."""
        return decoded(PtpDeviceInfo, "ptp_device_info", 25, data)


@dataclass(frozen=True)
class PtpObjectInfo:
    """What a camera says of an object that it holds."""

    StorageID: int
    ObjectFormat: int
    ProtectionStatus: int
    ObjectCompressedSize: int
    ThumbFormat: int
    ThumbCompressedSize: int
    ThumbPixWidth: int
    ThumbPixHeight: int
    ImagePixWidth: int
    ImagePixHeight: int
    ImageBitDepth: int
    ParentObject: int
    AssociationType: int
    AssociationDesc: int
    SequenceNumber: int
    Filename: str
    CaptureDate: str
    ModificationDate: str
    Keywords: str

    @staticmethod
    def decode(data: archive.Bytes) -> "Tuple[PtpObjectInfo, int]":
        """The record that begins the bytes, and how many it takes. Refusals: END, TEXT."""
        return decoded(PtpObjectInfo, "ptp_object_info", 24, data)


@dataclass(frozen=True)
class PtpStorageInfo:
    """What a camera says of a store."""

    StorageType: int
    FilesystemType: int
    AccessCapability: int
    MaxCapacity: int
    FreeSpaceInBytes: int
    FreeSpaceInImages: int
    StorageDescription: str
    VolumeLabel: str

    @staticmethod
    def decode(data: archive.Bytes) -> "Tuple[PtpStorageInfo, int]":
        """The record that begins the bytes, and how many it takes. Refusals: END, TEXT."""
        return decoded(PtpStorageInfo, "ptp_storage_info", 11, data)


# Bytes of each number, by the record and the field; strings and arrays have none of their own.
WIDTHS: Dict[str, Dict[str, int]] = {
    "device": dict(Version=2, VendorExID=4, VendorExVersion=2, FunctionalMode=2),
    "object": dict(StorageID=4, ObjectFormat=2, ProtectionStatus=2, ObjectCompressedSize=4, ThumbFormat=2, ThumbCompressedSize=4, ThumbPixWidth=4,
                   ThumbPixHeight=4, ImagePixWidth=4, ImagePixHeight=4, ImageBitDepth=4, ParentObject=4, AssociationType=2, AssociationDesc=4,
                   SequenceNumber=4),
    "storage": dict(StorageType=2, FilesystemType=2, AccessCapability=2, MaxCapacity=8, FreeSpaceInBytes=8, FreeSpaceInImages=4),
}
RECORDS: Dict[str, Tuple[Any, str, int]] = {
    "device": (PtpDeviceInfo, "ptp_device_info", 25),
    "object": (PtpObjectInfo, "ptp_object_info", 24),
    "storage": (PtpStorageInfo, "ptp_storage_payload", 11),
}
COUNT_BYTES = {"str": 1}
ARRAY_COUNT_BYTES = 4


def starts_of(which: str, numbers: List[int]) -> List[int]:
    """Where each field begins: a string right before its units, an array four bytes before its items, a number so many bytes before what follows it.
    The end of the record comes first among the numbers, and last here."""
    kind, end, places = RECORDS[which][0], numbers[0], [numbers[0]]
    at = len(numbers)
    for name, word in reversed(laid_out(kind)):
        if word == "int":
            at, end = at - 1, end - WIDTHS[which][name]
        else:
            at -= 2
            end = numbers[at] - COUNT_BYTES.get(word, ARRAY_COUNT_BYTES)
        places.append(end)
    return places[::-1]


def spans(which: str, data: archive.Bytes) -> Tuple[Any, List[Tuple[str, int, int]]]:
    """A device, object or storage record, and of each field its name, its place and its length in bytes. Refusals: those of reading it; a storage
    record must fill the bytes."""
    kind, function, count = RECORDS[which]
    data = bytes(data)
    numbers = archive.numbers(function, count, data)
    places = starts_of(which, numbers)
    rows = [(name, start, after - start) for (name, _), start, after in zip(laid_out(kind), places, places[1:])]
    return filled(kind, data, numbers[1:]), rows


def object_handles(payload: archive.Bytes) -> Tuple[int, ...]:
    """Object handles, which fill the payload. Refusals: END; TRAIL where bytes follow."""
    payload = bytes(payload)
    _, start, count = archive.numbers("ptp_handles", 3, payload)
    return items_of(UINT32, payload, start, count)


def storage_ids(payload: archive.Bytes) -> Tuple[int, ...]:
    """Storage IDs: laid out as handles are. Refusals: those of `object_handles`."""
    return object_handles(payload)


def object_count(payload: archive.Bytes) -> int:
    """The number of objects, which fills the payload. Refusals: END; TRAIL where bytes follow."""
    return archive.numbers("ptp_object_count", 2, bytes(payload))[1]


def storage_info(payload: archive.Bytes) -> PtpStorageInfo:
    """A storage record that fills the payload. Refusals: END, TEXT; TRAIL where bytes follow."""
    return decoded(PtpStorageInfo, "ptp_storage_payload", 11, payload)[0]


def tidy_device(data: archive.Bytes) -> bytes:
    """The tidy spelling of the record that begins the bytes. Refusals: END, TEXT."""
    return archive.written("ptp_tidy_device", len(data), bytes(data))


def tidy_object(data: archive.Bytes) -> bytes:
    """As `tidy_device`, of an object record."""
    return archive.written("ptp_tidy_object", len(data), bytes(data))


def tidy_storage(data: archive.Bytes) -> bytes:
    """As `tidy_device`, of a storage record."""
    return archive.written("ptp_tidy_storage", len(data), bytes(data))
