"""A recording by transactions: records as the proved listing gives them, window by window, put together into entries in the order of their places.

What stands between a Command and its Response waits for it, so that an entry comes where its first record stands. So many records wait at most: then
the command is told as unanswered."""

from __future__ import annotations

from dataclasses import dataclass
from typing import Any, Dict, Iterator, List, NamedTuple, Optional, Tuple

from ptp_proved.code import COMMANDS, RESPONSES, code_name
from ptp_proved.fields import FIRST_BYTES, Field, Read, Reader, listed, parameters
from ptp_proved.meaning import COMMAND_PARAMETERS, EVENT_PARAMETERS, RESPONSE_PARAMETERS
from ptp_proved.property import PropLayout
from ptp_proved.refusal import REFUSALS

RECORD_HEADER, CONTAINER_HEADER = 6, 12
PATIENCE = 256
LAST_NUMBER = 4_294_967_294

UNANSWERED = "no Response came"
STRAY_RESPONSE = "a Response without its Command"
STRAY_DATA = "Data without its Command"


class Record(NamedTuple):
    """A record by its line in the listing, with its bytes: those behind the headers, and all. A note has neither code nor number."""

    place: int
    way: str
    kind: str
    word: str
    number: int
    payload: bytes
    raw: bytes

    @property
    def start(self) -> int:
        """Where the payload begins in the recording."""
        return self.place + RECORD_HEADER + (0 if self.kind == "note" else CONTAINER_HEADER)

    @property
    def length(self) -> int:
        return self.start - self.place + len(self.payload)

    @property
    def code(self) -> int:
        """A word is the name, or four hexadecimal digits."""
        known = (RESPONSES if self.kind == "Response" else COMMANDS).get(self.word)
        return int(self.word, 16) if known is None else known

    @property
    def name(self) -> Optional[str]:
        if self.kind == "Event":
            return code_name("event", self.code)
        return None if self.word.startswith("0x") else self.word

    def head(self) -> Dict[str, Any]:
        return {"place": self.place, "length": self.length, "way": self.way, "code": self.code, "name": self.name}


@dataclass(frozen=True)
class Told:
    """A container with its parameters."""

    record: Record
    parameters: Tuple[Field, ...]

    def as_json(self) -> Dict[str, Any]:
        return {**self.record.head(), "parameters": listed(self.parameters)}


@dataclass(frozen=True)
class Carried:
    """The data of a transaction: the last Data container, what it says, and how many there were."""

    record: Record
    read: Read
    containers: int = 1

    def as_json(self) -> Dict[str, Any]:
        refusal = self.read.refusal
        return {
            **self.record.head(), "containers": self.containers, "payload": {"place": self.record.start, "length": len(self.record.payload)},
            "reading": self.read.reading, "fields": listed(self.read.fields),
            "bytes": None if self.read.first is None else self.read.first.hex(),
            "refusal": refusal and {"number": refusal.number, "name": refusal.name, "place": refusal.place},
        }


@dataclass(frozen=True)
class Transaction:
    """A command with what came of it."""

    command: Told
    data: Optional[Carried]
    response: Optional[Told]
    said: Tuple[str, ...]

    @property
    def place(self) -> int:
        return self.command.record.place

    def as_json(self) -> Dict[str, Any]:
        return {"kind": "transaction", "place": self.place, "number": self.command.record.number, "command": self.command.as_json(),
                "data": self.data and self.data.as_json(), "response": self.response and self.response.as_json(), "said": list(self.said)}


@dataclass(frozen=True)
class Event:
    """What the camera told by itself."""

    told: Told
    said: Tuple[str, ...]

    @property
    def place(self) -> int:
        return self.told.record.place

    def as_json(self) -> Dict[str, Any]:
        return {"kind": "event", "number": self.told.record.number, **self.told.as_json(), "said": list(self.said)}


@dataclass(frozen=True)
class Note:
    """An operator's note: its text where it is UTF-8, else its first bytes."""

    record: Record
    text: Optional[str]

    @property
    def place(self) -> int:
        return self.record.place

    def as_json(self) -> Dict[str, Any]:
        return {"kind": "note", "place": self.place, "length": self.record.length,
                "payload": {"place": self.record.start, "length": len(self.record.payload)},
                "text": self.text, "bytes": None if self.text is not None else self.record.payload[:FIRST_BYTES].hex()}


@dataclass(frozen=True)
class Stray:
    """Data or a Response that belongs to no command before it."""

    told: Told
    said: Tuple[str, ...]

    @property
    def place(self) -> int:
        return self.told.record.place

    def as_json(self) -> Dict[str, Any]:
        record = self.told.record
        return {"kind": "stray", "container": record.kind, "number": record.number, **self.told.as_json(),
                "payload": {"place": record.start, "length": len(record.payload)}, "bytes": record.payload[:FIRST_BYTES].hex(), "said": list(self.said)}


@dataclass(frozen=True)
class Refused:
    """The record that ended the reading: by the listing's own line."""

    place: int
    number: int
    at: Optional[int]

    def as_json(self) -> Dict[str, Any]:
        return {"kind": "refusal", "place": self.place, "number": self.number, "name": REFUSALS[self.number - 1][0], "at": self.at}


@dataclass
class Totals:
    """What the recording holds, as far as it was read."""

    transactions: int = 0
    unanswered: int = 0
    not_ok: int = 0
    events: int = 0
    notes: int = 0
    stray: int = 0
    records: int = 0
    bytes: int = 0

    def as_json(self) -> Dict[str, Any]:
        return {"kind": "totals", "transactions": self.transactions, "unanswered": self.unanswered, "not_ok": self.not_ok, "events": self.events,
                "notes": self.notes, "stray": self.stray, "records": self.records, "bytes": self.bytes}


@dataclass
class Open:
    """A command that waits for its Response, and what came meanwhile."""

    command: Record
    said: List[str]
    data: Optional[Record] = None
    containers: int = 0


def note_text(body: bytes) -> Optional[str]:
    try:
        return body.decode("utf-8")
    except UnicodeDecodeError:
        return None


def out_of_order(number: int, due: int) -> str:
    return f"its number is {number}, and {due} was next"


def is_of_order(sentence: str) -> bool:
    return sentence.startswith("its number is ")


def number_after(number: int, word: str) -> int:
    """The number that comes next, as a session counts; 0 where it is closed."""
    if word == "OpenSession":
        return 1
    if word == "CloseSession" or number == 0:
        return 0
    return number + 1 if number < LAST_NUMBER else 1


class Day:
    """Records in, entries out."""

    def __init__(self, layout: Optional[PropLayout]) -> None:
        self.reader, self.totals = Reader(layout), Totals()
        self.open: Optional[Open] = None
        self.waiting: List[Any] = []
        self.next_number: Optional[int] = None

    def take(self, record: Record) -> Iterator[Any]:
        """The entries that are whole with this record."""
        return TAKERS[record.kind](self, record)

    def ended(self) -> Iterator[Any]:
        """Those that are left where the recording ends."""
        if self.open:
            yield self.closed(None, [UNANSWERED])
        yield from self.given()

    def given(self) -> Iterator[Any]:
        """What waited, which is not held any more."""
        waited, self.waiting = self.waiting, []
        yield from waited

    def beside(self, entry: Any) -> Iterator[Any]:
        """An entry of its own, which waits where a command does."""
        if not self.open:
            yield entry
            return
        self.waiting.append(entry)
        if len(self.waiting) >= PATIENCE:
            yield from self.ended()

    def take_command(self, record: Record) -> Iterator[Any]:
        yield from self.ended()
        self.open = Open(record, [*self.counted(record), *way_said(record, "out")])

    def counted(self, record: Record) -> List[str]:
        """A sentence where the number is not the next."""
        due = 0 if record.word == "OpenSession" else self.next_number
        self.next_number = number_after(record.number, record.word)
        return [] if due is None or due == record.number else [out_of_order(record.number, due)]

    def take_data(self, record: Record) -> Iterator[Any]:
        if not self.open or self.open.command.number != record.number:
            yield from self.beside(self.stray(record, STRAY_DATA))
            return
        if record.word != self.open.command.word:
            self.open.said.append(f"its Data carries {record.word}")
        self.open.data, self.open.containers = record, self.open.containers + 1

    def take_response(self, record: Record) -> Iterator[Any]:
        if not self.open or self.open.command.number != record.number:
            yield from self.beside(self.stray(record, STRAY_RESPONSE))
            return
        yield self.closed(record, [])
        yield from self.given()

    def take_event(self, record: Record) -> Iterator[Any]:
        self.totals.events += 1
        told, rest = parameters(record.payload, record.start, EVENT_PARAMETERS.get(record.name or "", ()))
        yield from self.beside(Event(Told(record, told), (*rest, *way_said(record, "in"))))

    def take_note(self, record: Record) -> Iterator[Any]:
        self.totals.notes += 1
        yield from self.beside(Note(record, note_text(record.payload)))

    def stray(self, record: Record, sentence: str) -> Stray:
        self.totals.stray += 1
        told, rest = parameters(record.payload, record.start, ()) if record.kind == "Response" else ((), ())
        return Stray(Told(record, told), (sentence, *rest))

    def closed(self, answer: Optional[Record], said: List[str]) -> Transaction:
        """The open command with its Response, or without one."""
        assert self.open
        opened, self.open = self.open, None
        command = opened.command
        sent, rest = parameters(command.payload, command.start, COMMAND_PARAMETERS.get(command.word, ()))
        got, rest_of_answer = ((), ()) if answer is None else parameters(answer.payload, answer.start, RESPONSE_PARAMETERS.get(command.word, ()))
        carried = self.carried(opened, sent)
        self.count(answer, carried)
        more = [*opened.said, *rest, *several(opened.containers), *(carried.read.said if carried else ()), *rest_of_answer,
                *(way_said(answer, "in") if answer else ()), *said]
        return Transaction(Told(command, sent), carried, None if answer is None else Told(answer, got), tuple(more))

    def carried(self, opened: Open, sent: Tuple[Field, ...]) -> Optional[Carried]:
        if opened.data is None:
            return None
        code = sent[0].value if sent and sent[0].name == "DevicePropCode" and isinstance(sent[0].value, int) else None
        read = self.reader.read(opened.command.name, code, opened.data.payload, opened.data.start)
        return Carried(opened.data, read, opened.containers)

    def count(self, answer: Optional[Record], carried: Optional[Carried]) -> None:
        self.totals.transactions += 1
        self.totals.unanswered += answer is None
        is_ok = answer is not None and answer.word == "Ok"
        self.totals.not_ok += answer is not None and not is_ok
        if is_ok and carried:
            self.reader.note(carried.read.described)


def several(containers: int) -> Tuple[str, ...]:
    return (f"{containers} Data containers, of which the last is read",) if containers > 1 else ()


def way_said(record: Record, due: str) -> Tuple[str, ...]:
    """A sentence where a container went the other way."""
    if record.way == due:
        return ()
    return (f"the {record.kind} {'came from' if record.way == 'in' else 'went to'} the camera",)


TAKERS = {"Command": Day.take_command, "Data": Day.take_data, "Response": Day.take_response, "Event": Day.take_event, "note": Day.take_note}
