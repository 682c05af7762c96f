"""The entries of a recording as text, and as JSON: one object a line."""

from __future__ import annotations

import json
from typing import Any, Callable, Dict, Iterator, List, Optional, Tuple

from ptp_proved.day import Carried, Day, Event, Note, Refused, Stray, Told, Totals, Transaction
from ptp_proved.fields import FIRST_BYTES, Field
from ptp_proved.property import PropLayout
from ptp_proved.spoken import quoted
from ptp_proved.windows import Window, record_of, refusal_of, windows

INDENT = "    "


def parameter_text(fields: Tuple[Field, ...]) -> str:
    return ", ".join(f"{one.name} {one.text}" for one in fields)


def bytes_text(length: int, first: bytes) -> str:
    """A length and the first bytes."""
    more = " .." if length > len(first) else ""
    return f"{length} bytes" + (f": {first.hex(' ')}{more}" if first else "")


def refusal_text(number: int, name: str, place: Optional[int], sentence: str) -> str:
    return f"refusal {number} {name}" + ("" if place is None else f" at {place}") + f": {sentence}"


def data_lines(carried: Carried) -> Iterator[str]:
    read = carried.read
    for one in read.fields:
        yield f"{one.name} {one.text}"
    if read.first is not None:
        yield bytes_text(len(carried.record.payload), read.first)
    if read.refusal:
        yield refusal_text(read.refusal.number, read.refusal.name, read.refusal.place, read.refusal.sentence)


def head_text(told: Told, words: str, behind: str = "") -> str:
    """The head line's words, and after them the parameters."""
    sent = parameter_text(told.parameters)
    return words + (f": {sent}" if sent else "") + (f" -> {behind}" if behind else "")


def transaction_lines(one: Transaction) -> Iterator[str]:
    command, answer = one.command.record, one.response
    words = f"{command.place} {command.word} {command.number} {answer.record.word if answer else 'unanswered'}"
    yield head_text(one.command, words, parameter_text(answer.parameters) if answer else "")
    yield from indented(data_lines(one.data)) if one.data else ()
    yield from indented(one.said)


def indented(lines: Any) -> Iterator[str]:
    return (INDENT + line for line in lines)


def event_lines(one: Event) -> Iterator[str]:
    record = one.told.record
    yield head_text(one.told, f"{record.place} event {record.name or record.word} {record.number}")
    yield from indented(one.said)


def note_words(text: Optional[str], payload: bytes) -> str:
    return bytes_text(len(payload), payload[:FIRST_BYTES]) if text is None else quoted(text)


def note_lines(one: Note) -> Iterator[str]:
    yield f"{one.place} note {note_words(one.text, one.record.payload)}"


def stray_lines(one: Stray) -> Iterator[str]:
    record = one.told.record
    yield head_text(one.told, f"{record.place} {record.kind} {record.word} {record.number}")
    if record.kind == "Data":
        yield INDENT + bytes_text(len(record.payload), record.payload[:FIRST_BYTES])
    yield from indented(one.said)


def refused_lines(one: Refused) -> Iterator[str]:
    yield f"{one.place} refusal {one.number}" + ("" if one.at is None else f" {one.at}")


def totals_lines(one: Totals) -> Iterator[str]:
    yield (f"transactions {one.transactions} unanswered {one.unanswered} not-ok {one.not_ok} events {one.events} notes {one.notes} "
           f"stray {one.stray} records {one.records} bytes {one.bytes}")


LINES: Dict[type, Callable[[Any], Iterator[str]]] = {
    Transaction: transaction_lines, Event: event_lines, Note: note_lines, Stray: stray_lines, Refused: refused_lines, Totals: totals_lines,
}


def text_of(entry: Any) -> str:
    return "".join(line + "\n" for line in LINES[type(entry)](entry))


def json_of(entry: Any) -> str:
    return json.dumps(entry.as_json(), ensure_ascii=True, separators=(",", ":")) + "\n"


def entries_of(lines: List[str], window: Window, day: Day) -> Iterator[Any]:
    """The entries that are whole with these lines of a window."""
    for line in lines:
        if line.split(" ", 2)[1] == "refusal":
            yield from day.ended()
            yield refusal_of(line)
        else:
            yield from day.take(record_of(line, window))


def last_of(day: Day, window: Window) -> Iterator[Any]:
    """What is left behind the last window."""
    yield from day.ended()
    day.totals.records, day.totals.bytes = window.tally.records, window.tally.place
    yield day.totals


def entries(read: Callable[[int], bytes], layout: Optional[PropLayout]) -> Iterator[Any]:
    """All entries of a recording, last its totals."""
    day = Day(layout)
    for window in windows(read):
        yield from entries_of(window.lines.split("\n")[:-1], window, day)
    yield from last_of(day, window)


def json_pieces(read: Callable[[int], bytes], layout: Optional[PropLayout]) -> Iterator[Tuple[str, bool]]:
    """The JSON, window by window, and whether a refused record was told."""
    day, window = Day(layout), None
    for window in windows(read):
        yield "".join(map(json_of, entries_of(window.lines.split("\n")[:-1], window, day))), window.stopped
    assert window
    yield "".join(map(json_of, last_of(day, window))), window.stopped
