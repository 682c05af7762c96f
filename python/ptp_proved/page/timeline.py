"""The entries of a recording as the page's rows: short names, since there are many.

A row: k its kind, p its place, w its word, n its number, r the response's word and whether it is refused, c its code, s what it is about,
m sentences, x the property that it is of, g its records. A record: t its title, p its place, l its length, b its first bytes in base 64,
f its fields, each a name, a text, a place and a length."""

from __future__ import annotations

import base64
from typing import Any, Callable, Dict, List, Optional, Tuple

from ptp_proved.day import Carried, Event, Note, Record, Refused, Stray, Told, Transaction
from ptp_proved.fields import Field
from ptp_proved.page.report import Dropped
from ptp_proved.refusal import REFUSALS
from ptp_proved.shown import bytes_text, note_words, parameter_text, refusal_text

Row = Dict[str, Any]
# So many bytes of a record stand on the page: those of a payload that was read, and of one that is bytes.
MOST_READ, MOST_UNREAD = 4096, 274
KIND_AT, CODE_AT, NUMBER_AT = 10, 12, 14
# Which field says what a payload is about.
TELLING = {"object": "Filename", "property": "Current", "value": "Value", "device": "Model", "storage": "StorageDescription", "count": "NumObjects",
           "handles": "ObjectHandles", "storage-ids": "StorageIDs"}
LONGEST_TELLING = 100


def in_short(field: Field) -> List[Any]:
    return [field.name, field.text, field.place, field.length]


def shortened(text: str) -> str:
    return text if len(text) <= LONGEST_TELLING else text[:LONGEST_TELLING] + " .."


def headers(record: Record) -> List[List[Any]]:
    """The container's own fields."""
    code = f"0x{record.code:04x}" + (f" {record.name}" if record.name else "")
    return [["Kind", record.kind, record.place + KIND_AT, 2], ["Code", code, record.place + CODE_AT, 2],
            ["TransactionID", str(record.number), record.place + NUMBER_AT, 4]]


def record_row(record: Record, fields: Tuple[Field, ...], most: int = MOST_READ) -> Row:
    way = "" if record.kind == "note" else ", from the camera" if record.way == "in" else ", to the camera"
    own = [] if record.kind == "note" else headers(record)
    return {"t": record.kind + way, "p": record.place, "l": record.length, "b": base64.b64encode(record.raw[:most]).decode("ascii"),
            "f": own + [in_short(one) for one in fields]}


def told_row(told: Told) -> Row:
    return record_row(told.record, told.parameters)


def data_row(carried: Carried) -> Row:
    return record_row(carried.record, carried.read.fields, MOST_READ if carried.read.fields else MOST_UNREAD)


def about(told: Told, carried: Optional[Carried]) -> str:
    """The parameters that have a meaning, and what the payload is about."""
    parts = [parameter_text(tuple(one for one in told.parameters if not one.name.startswith("Parameter")))]
    if carried and carried.read.fields:
        name = TELLING[carried.read.reading or ""]
        parts += [f"{name} {shortened(one.text)}" for one in carried.read.fields if one.name == name]
    elif carried:
        parts.append(f"{len(carried.record.payload):,} bytes")
    return " · ".join(filter(None, parts))


def property_of(told: Told) -> Optional[int]:
    return next((one.value for one in told.parameters if one.name == "DevicePropCode" and isinstance(one.value, int)), None)


def sentences(carried: Optional[Carried]) -> List[str]:
    """What a reader said where it gave no fields."""
    if not carried or carried.read.first is None:
        return []
    refusal = carried.read.refusal
    told = [refusal_text(refusal.number, refusal.name, refusal.place, refusal.sentence)] if refusal else []
    return [bytes_text(len(carried.record.payload), carried.read.first), *told]


def transaction_row(one: Transaction) -> Row:
    command, answer = one.command.record, one.response
    groups = [told_row(one.command), *([data_row(one.data)] if one.data else []), *([told_row(answer)] if answer else [])]
    behind = parameter_text(answer.parameters) if answer else ""
    return {"k": "transaction", "p": one.place, "w": command.word, "n": command.number, "c": f"0x{command.code:04x}",
            "r": [answer.record.word, answer.record.word != "Ok"] if answer else ["unanswered", True],
            "s": about(one.command, one.data) + (f" → {behind}" if behind else ""), "m": [*sentences(one.data), *one.said],
            "x": property_of(one.command), "g": groups}


def event_row(one: Event) -> Row:
    record = one.told.record
    return {"k": "event", "p": one.place, "w": record.name or record.word, "n": record.number, "c": record.word, "r": None,
            "s": about(one.told, None), "m": list(one.said), "x": property_of(one.told), "g": [told_row(one.told)]}


def note_row(one: Note) -> Row:
    payload, start = one.record.payload, one.record.start
    text = note_words(one.text, payload)
    fields = () if one.text is None else (Field("Text", one.text, text, start, len(payload)),)
    return {"k": "note", "p": one.place, "w": "note", "n": None, "c": "", "r": None, "s": shortened(text), "m": [], "x": None,
            "g": [record_row(one.record, fields, MOST_UNREAD)]}


def stray_row(one: Stray) -> Row:
    record = one.told.record
    return {"k": "stray", "p": one.place, "w": record.word, "n": record.number, "c": f"0x{record.code:04x}", "r": [f"stray {record.kind}", True],
            "s": f"{len(record.payload):,} bytes", "m": list(one.said), "x": None, "g": [record_row(record, one.told.parameters, MOST_UNREAD)]}


def refused_row(one: Refused) -> Row:
    name, sentence = REFUSALS[one.number - 1]
    return {"k": "refusal", "p": one.place, "w": "refused record", "n": None, "c": "", "r": [name, True],
            "s": refusal_text(one.number, name, one.at, sentence), "m": ["the reading ends here"], "x": None, "g": []}


def dropped_row(one: Dropped) -> Row:
    return {"k": "dropped", "p": one.mended, "w": "dropped", "n": None, "c": "", "r": None,
            "s": f"{one.length:,} bytes that mend dropped, at {one.place:,} of the damaged recording", "m": [], "x": None, "g": []}


ROWS: Dict[type, Callable[[Any], Row]] = {Transaction: transaction_row, Event: event_row, Note: note_row, Stray: stray_row, Refused: refused_row}


def row_of(entry: Any) -> Row:
    return ROWS[type(entry)](entry)
