"""Properties as the page tells of them: what each may be, and when it was described, set, read or changed, to what."""

from __future__ import annotations

from typing import Any, Dict, List, Optional

from ptp_proved.code import code_name
from ptp_proved.day import Carried, Event, Transaction
from ptp_proved.fields import Field
from ptp_proved.property import PropLayout
from ptp_proved.refusal import VALUE, Refusal
from ptp_proved.session import Session
from ptp_proved.value import PtpValue

DOINGS = {"SetDevicePropValue": "set", "GetDevicePropValue": "read", "GetDevicePropDesc": "described", "ResetDevicePropValue": "reset"}
MOST_TIMES = 2000


class Property:
    """One property over the day."""

    def __init__(self, code: int) -> None:
        self.code, self.description = code, b""
        self.data_type, self.may, self.access = 0, "", ""
        self.times: List[List[Any]] = []
        self.count = 0

    def as_row(self) -> Dict[str, Any]:
        return {"c": f"0x{self.code:04x}", "w": code_name("property", self.code) or "", "x": self.code, "t": self.access, "f": self.may,
                "h": self.times, "n": self.count}


class Properties:
    """All properties, by their codes in the order in which they come."""

    def __init__(self, layout: Optional[PropLayout]) -> None:
        self.layout, self.found = layout, {}  # type: Optional[PropLayout], Dict[int, Property]

    def take(self, entry: Any) -> None:
        if isinstance(entry, Event):
            changed = [one for one in entry.told.parameters if one.name == "DevicePropCode"]
            for one in changed:
                self.told(one, entry.place, "changed", "", "", False)
        elif isinstance(entry, Transaction) and entry.command.record.word in DOINGS and entry.command.parameters:
            self.take_transaction(entry, entry.command.parameters[0])

    def take_transaction(self, entry: Transaction, code: Field) -> None:
        answer = entry.response.record.word if entry.response else "unanswered"
        doing = DOINGS[entry.command.record.word]
        if doing == "described" and entry.data and entry.data.read.described and answer == "Ok":
            code = entry.data.read.fields[0]
            self.describe(self.of(code), entry.data)
        value = self.value_of(entry.data)
        is_outside = value is not None and self.is_outside(self.of(code), value[1])
        self.told(code, entry.place, doing, value[0].text if value else "", answer, is_outside)

    def of(self, code: Field) -> Property:
        assert isinstance(code.value, int)
        return self.found.setdefault(code.value, Property(code.value))

    def told(self, code: Field, place: int, doing: str, text: str, answer: str, is_outside: bool) -> None:
        one = self.of(code)
        one.count += 1
        if len(one.times) < MOST_TIMES:
            one.times.append([place, doing, text, answer, is_outside])

    def value_of(self, carried: Optional[Carried]) -> Any:
        """The field that says the value, and the value's bytes."""
        for one in carried.read.fields if carried else ():
            if one.name in ("Value", "Current") and carried:
                start = one.place - carried.record.start
                return one, carried.record.payload[start:start + one.length]
        return None

    def describe(self, one: Property, carried: Carried) -> None:
        one.description = carried.record.payload
        fields = {field.name: field for field in carried.read.fields}
        assert isinstance(fields["DataType"].value, int)
        one.data_type = fields["DataType"].value
        one.access = f"{fields['DataType'].text.split(' ')[-1]}, {fields['GetSet'].text.split(' ')[-1]}, default {fields['FactoryDefault'].text}"
        if "array" in fields:
            one.may = f"one of {fields['array'].text}"
        elif "step" in fields:
            one.may = f"from {fields['minValue'].text} to {fields['maxValue'].text} in steps of {fields['step'].text}"
        else:
            one.may = "any value of its type"

    def is_outside(self, one: Property, value: bytes) -> bool:
        """Whether the description as it stood then does not allow the value, by the proved panel."""
        if not one.description or self.layout is None:
            return False
        try:
            Session(1).set_value(self.layout, one.description, one.data_type, PtpValue.read(one.data_type, value)[0].bytes)
        except Refusal as refusal:
            return refusal.number == VALUE
        return False

    def rows(self) -> List[Dict[str, Any]]:
        return [self.found[code].as_row() for code in sorted(self.found)]
