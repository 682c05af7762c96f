"""Fields of a payload: what a proved reader answered, with each field's place in the recording and its length in bytes."""

from __future__ import annotations

from dataclasses import dataclass
from typing import Any, Dict, List, NamedTuple, Optional, Tuple

from ptp_proved.dataset import object_count, object_handles, spans
from ptp_proved.meaning import FIELDS, READINGS, Meanings
from ptp_proved.property import Enumeration, PropLayout, PtpPropInfo, Range, prop_spans
from ptp_proved.reader import PtpReader
from ptp_proved.refusal import Refusal
from ptp_proved.spoken import Shown, of_property, spoken
from ptp_proved.value import PtpValue

PARAMETER_BYTES, MOST_PARAMETERS = 4, 5
FIRST_BYTES = 16

NO_LAYOUT = "a description, which is not read: no --layout names its layout"
NO_DESCRIPTION = "a value, which is not read: no description of the property stands before it"


class Field(NamedTuple):
    """A field: its name, what it says, that as text, its place in the recording, and its length."""

    name: str
    value: Shown
    text: str
    place: int
    length: int

    def as_json(self) -> Dict[str, Any]:
        return {"name": self.name, "value": self.value, "text": self.text, "place": self.place, "length": self.length}


def field(name: str, how: str, value: Shown, place: int, length: int) -> Field:
    return Field(name, value, spoken(how, value), place, length)


@dataclass(frozen=True)
class Read:
    """What a payload says. Where no reader read it there are no fields, but its first bytes; and why: a refusal, or a sentence, or that it is bytes."""

    reading: Optional[str]
    fields: Tuple[Field, ...] = ()
    first: Optional[bytes] = None
    refusal: Optional[Refusal] = None
    said: Tuple[str, ...] = ()
    # of a description: the property, and the type of its values
    described: Optional[Tuple[int, int]] = None


def meaning_of(meanings: Meanings, k: int) -> Tuple[str, str]:
    """The name of parameter k, from 0, and how it is shown."""
    return meanings[k] if k < len(meanings) else (f"Parameter{k + 1}", "number")


def parameters(payload: bytes, place: int, meanings: Meanings) -> Tuple[Tuple[Field, ...], Tuple[str, ...]]:
    """At most five numbers of four bytes each, by their meaning; and a sentence where bytes follow them."""
    count = min(len(payload) // PARAMETER_BYTES, MOST_PARAMETERS)
    made, reader = [], PtpReader(payload)
    for k in range(count):
        name, how = meaning_of(meanings, k)
        made.append(field(name, how, reader.read_ptp_u32(), place + PARAMETER_BYTES * k, PARAMETER_BYTES))
    rest = len(payload) - PARAMETER_BYTES * count
    return tuple(made), (f"{rest} bytes behind the parameters",) if rest else ()


def record_fields(which: str, payload: bytes, place: int) -> Tuple[Field, ...]:
    """Of a device, object or storage record."""
    record, rows = spans(which, payload)
    return tuple(field(name, FIELDS.get(name, "number"), getattr(record, name), place + start, length) for name, start, length in rows)


def property_value(info: PtpPropInfo, name: str) -> Shown:
    """What a part of a description says."""
    form = info.Form
    if name == "Form":
        return 1 if isinstance(form, Range) else 2 if isinstance(form, Enumeration) else 0
    if name == "array" and isinstance(form, Enumeration):
        return tuple(value.value for value in form.array)
    value = getattr(form if isinstance(form, Range) and hasattr(form, name) else info, name)
    return value.value if isinstance(value, PtpValue) else value


def property_fields(layout: PropLayout, payload: bytes, place: int) -> Read:
    info, _ = PtpPropInfo.decode(layout, payload)
    own = of_property(info.PropertyCode)
    rows = prop_spans(layout, payload)
    fields = tuple(field(name, FIELDS.get(name, own), property_value(info, name), place + start, length) for name, start, length in rows)
    return Read("property", fields, described=(info.PropertyCode, info.DataType))


def one_field(reading: str, name: str, value: Shown, payload: bytes, place: int) -> Read:
    return Read(reading, (field(name, FIELDS.get(name, "number"), value, place, len(payload)),))


def value_field(code: int, data_type: int, payload: bytes, place: int) -> Read:
    """A value of the type that the property was last described with, which fills the payload."""
    reader = PtpReader(payload)
    value = reader.read_type(data_type)
    reader.expect_end()
    return Read("value", (field("Value", of_property(code), value, place, len(payload)),))


class Reader:
    """Reads payloads by the command that they are of. It keeps the type that each property was last described with."""

    def __init__(self, layout: Optional[PropLayout]) -> None:
        self.layout = layout
        self.types: Dict[int, int] = {}
        self.changes = 0

    def note(self, described: Optional[Tuple[int, int]]) -> None:
        """Values are read by this from now on; it is counted how often that changed."""
        if described and self.types.get(described[0]) != described[1]:
            self.types[described[0]] = described[1]
            self.changes += 1

    def read(self, command: Optional[str], property_code: Optional[int], payload: bytes, place: int) -> Read:
        """The payload of a command's data. A refusal is told by its place in the recording."""
        reading = READINGS.get(command or "")
        first = payload[:FIRST_BYTES]
        if reading is None:
            return Read(None, first=first)
        sentence = self.unread(reading, property_code)
        if sentence:
            return Read(reading, first=first, said=(sentence,))
        try:
            return self.by(reading, property_code, payload, place)
        except Refusal as refusal:
            told = refusal if refusal.place is None else Refusal(refusal.number, place + refusal.place)
            return Read(reading, first=first, refusal=told)

    def unread(self, reading: str, property_code: Optional[int]) -> Optional[str]:
        """Why a reading cannot be tried."""
        if reading == "property" and self.layout is None:
            return NO_LAYOUT
        if reading == "value" and property_code not in self.types:
            return NO_DESCRIPTION
        return None

    def by(self, reading: str, property_code: Optional[int], payload: bytes, place: int) -> Read:
        if reading == "property" and self.layout:
            return property_fields(self.layout, payload, place)
        if reading == "value" and property_code is not None:
            return value_field(property_code, self.types[property_code], payload, place)
        if reading in ("handles", "storage-ids"):
            return one_field(reading, "ObjectHandles" if reading == "handles" else "StorageIDs", object_handles(payload), payload, place)
        if reading == "count":
            return one_field(reading, "NumObjects", object_count(payload), payload, place)
        return Read(reading, record_fields(reading, payload, place))


def listed(fields: Tuple[Field, ...]) -> List[Dict[str, Any]]:
    return [one.as_json() for one in fields]
