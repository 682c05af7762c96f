"""The text of a recording, quickly: most of what a day says was said before, and is put together once; and what is most often new, parameters, a
property's number and notes, needs no objects.

Nothing is shown here that shown.py would not show: whatever else is new, or not in order, goes through it."""

from __future__ import annotations

import re
from dataclasses import replace
from typing import Any, Callable, Dict, Iterator, List, Match, Optional, Tuple

from ptp_proved import archive
from ptp_proved.day import CONTAINER_HEADER, PATIENCE, RECORD_HEADER, Day, Refused, Transaction, is_of_order, note_text, number_after, out_of_order
from ptp_proved.fields import FIRST_BYTES, MOST_PARAMETERS, PARAMETER_BYTES, meaning_of
from ptp_proved.meaning import COMMAND_PARAMETERS, READINGS, Meanings
from ptp_proved.property import PropLayout
from ptp_proved.shown import INDENT, bytes_text, entries_of, last_of, note_words, text_of
from ptp_proved.spoken import NUMBER_TEXTS, with_unit
from ptp_proved.value import SIGNED_KIND, UINT32, UNSIGNED_KIND, in_twos_complement
from ptp_proved.windows import Window, windows

# Lines of the listing: a whole transaction, with events within it or without; a note; an event; or any other one.
EVENTS = r"\d+ in Event \S+ \d+ \d+\n"
PARTS = re.compile(rf"(\d+) out Command (\S+) (\d+) (\d+)\n(?:(\d+) (in|out) Data \2 \3 (\d+)\n)?((?:{EVENTS}){{0,{PATIENCE - 1}}})\d+ in Response (\S+) \3 (\d+)\n"
                   rf"|(\d+) old-note (\d+)\n|({EVENTS})|([^\n]*\n)")
HEADERS = RECORD_HEADER + CONTAINER_HEADER
# Longer ones are not kept, and no more than so many.
LONGEST_KEPT = 1 << 10
MOST_KEPT = 1 << 12


class Numbers:
    """Integers that the library reads, into the same few words each time."""

    def __init__(self) -> None:
        self.read, self.out = archive.FUNCTIONS["ptp_value"][0], (archive.NUMBER * 4)()

    def integer(self, data: bytes, at: int, code: int) -> Optional[int]:
        """An integer of at most 64 bits that ends the bytes or stands before others; None for whatever is none."""
        if self.read(data, len(data), at, code, self.out, 4) < 0:
            return None
        kind, word = self.out[1], self.out[2]
        return word if kind == UNSIGNED_KIND else in_twos_complement(word, 64) if kind == SIGNED_KIND else None

    def parameters(self, payload: bytes, meanings: Meanings) -> Optional[str]:
        """Whole parameters, at most five, as a head line has them; None for others."""
        count, rest = divmod(len(payload), PARAMETER_BYTES)
        if rest or count > MOST_PARAMETERS:
            return None
        told = []
        for k in range(count):
            name, how = meaning_of(meanings, k)
            number = self.integer(payload, PARAMETER_BYTES * k, UINT32)
            assert number is not None
            told.append(f"{name} {NUMBER_TEXTS[how](number)}")
        return ": " + ", ".join(told) if told else ""

    def value(self, sent: bytes, payload: bytes, types: Dict[int, int]) -> Optional[str]:
        """A property's number with its unit, where it fills the payload; None for whatever is none."""
        code = self.integer(sent, 0, UINT32)
        if code is None or code not in types:
            return None
        number = self.integer(payload, 0, types[code])
        return with_unit(number, code) if number is not None and self.out[0] == len(payload) else None


class Quick:
    """Shows a recording's lines, and keeps what was shown by the bytes that it was of, without place and number."""

    def __init__(self, layout: Optional[PropLayout]) -> None:
        self.day, self.is_refused, self.numbers = Day(layout), False, Numbers()
        self.kept: Dict[Any, str] = {}
        self.changes = 0

    def text(self, window: Window) -> str:
        """The text of a window's lines."""
        made: List[str] = []
        for found in PARTS.finditer(window.lines):
            groups = found.groups()
            if self.day.open or groups[13]:
                made += self.slowly(found[0], window)
            elif groups[0]:
                made.append(self.transaction(found, groups, window))
                if groups[7]:
                    made += self.events(groups[7], window)
            elif groups[10]:
                made.append(self.note(int(groups[10]), int(groups[11]), window))
            else:
                made += self.events(groups[12], window)
        return "".join(made)

    def slowly(self, lines: str, window: Window) -> Iterator[str]:
        for entry in entries_of(lines.split("\n")[:-1], window, self.day):
            self.is_refused |= isinstance(entry, Refused)
            yield text_of(entry)
        self.forget()

    def forget(self) -> None:
        """Where a property was described anew: what was kept of its values may say another thing now."""
        if self.changes != self.day.reader.changes:
            self.changes = self.day.reader.changes
            self.kept.clear()

    def note(self, place: int, length: int, window: Window) -> str:
        start = place - window.base + RECORD_HEADER
        body = window.data[start:start + length]
        self.day.totals.notes += 1
        return f"{place} note {note_words(note_text(body), body)}\n"

    def events(self, lines: str, window: Window) -> Iterator[str]:
        for line in lines.split("\n")[:-1]:
            place, _, _, word, number, length = line.split(" ")
            start = int(place) - window.base + HEADERS
            key = word, window.data[start:start + int(length)]
            behind = self.kept.get(key)
            if behind is None:
                text = "".join(self.slowly(line + "\n", window))
                name, behind = text.split(" ", 3)[2:]
                self.keep(key, int(length), f" event {name} \n{behind[len(number):]}")
                yield text
            else:
                self.day.totals.events += 1
                yield place + behind.replace("\n", number, 1)

    def transaction(self, found: Match[str], groups: Tuple[Any, ...], window: Window) -> str:
        place, word, number, sent, data_place, way, carried, events, answer, got = groups[:10]
        data, base, day = window.data, window.base - HEADERS, self.day
        start = int(place) - base
        key: Tuple[Any, ...] = (word, answer, data[start:start + int(sent)])
        if data_place:
            start = int(data_place) - base
            key += way, data[start:start + int(carried)]
        behind = (self.kept.get(key) or self.new(key)) if got == "0" else None
        if behind is None:
            size = int(carried or 0) + int(sent) if got == "0" else LONGEST_KEPT
            return self.first_seen(found[0].replace(events, "", 1) if events else found[0], window, key, size)
        due, counted = (0 if word == "OpenSession" else day.next_number), int(number)
        day.next_number = number_after(counted, word)
        day.totals.transactions += 1
        day.totals.not_ok += answer != "Ok"
        if due is not None and due != counted:
            return f"{place} {word} {number} {answer}{behind}{INDENT}{out_of_order(counted, due)}\n"
        return f"{place} {word} {number} {answer}{behind}"

    def new(self, key: Tuple[Any, ...]) -> Optional[str]:
        """What is shown behind the response's name of a transaction with parameters alone, with data that is bytes, or with a number of a property that
        was described; None for every other one."""
        word, _, sent = key[:3]
        words = self.numbers.parameters(sent, COMMAND_PARAMETERS.get(word, ()))
        if words is None or len(key) == 3:
            return None if words is None else words + "\n"
        reading, payload = READINGS.get(word), key[4]
        if reading is None:
            return f"{words}\n{INDENT}{bytes_text(len(payload), payload[:FIRST_BYTES])}\n"
        value = self.numbers.value(sent, payload, self.day.reader.types) if reading == "value" else None
        return None if value is None else f"{words}\n{INDENT}Value {value}\n"

    def first_seen(self, lines: str, window: Window, key: Tuple[Any, ...], size: int) -> str:
        """Put together, and kept where only place and number are its own."""
        entry: Transaction = next(entries_of(lines.split("\n")[:-1], window, self.day))
        text = text_of(entry)
        self.forget()
        command = entry.command.record
        if entry.said[1:] or (entry.data and entry.data.read.refusal) or not all(map(is_of_order, entry.said)):
            return text
        behind = text_of(replace(entry, said=()))[len(f"{command.place} {command.word} {command.number} {key[1]}"):]
        self.keep(key, size, behind)
        return text

    def keep(self, key: Any, size: int, behind: str) -> None:
        if size < LONGEST_KEPT:
            if len(self.kept) >= MOST_KEPT:
                self.kept.clear()
            self.kept[key] = behind


def text_pieces(read: Callable[[int], bytes], layout: Optional[PropLayout]) -> Iterator[Tuple[str, bool]]:
    """The text, window by window, and whether a refused record was told."""
    quick = Quick(layout)
    for window in windows(read):
        yield quick.text(window), quick.is_refused
    yield "".join(map(text_of, last_of(quick.day, window))), quick.is_refused
