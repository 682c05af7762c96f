"""A recording of any size, listed window by window: the lines of the proved listing, each with the window that its record lies in."""

from __future__ import annotations

from typing import Callable, Iterator, NamedTuple

from ptp_proved.day import CONTAINER_HEADER, RECORD_HEADER, Record, Refused
from ptp_proved.record import Lister, Tally

PIECE = 1 << 18


class Window(NamedTuple):
    """Lines of records that lie in these bytes, which begin at a place of the recording; how many of the bytes were listed so far, and where the listing
    stands."""

    lines: str
    data: bytes
    base: int
    used: int
    tally: Tally
    stopped: bool


def windows(read: Callable[[int], bytes]) -> Iterator[Window]:
    """`read` gives at most so many bytes, none where the recording ends."""
    lister, tally, held, is_last = Lister(), Tally(), b"", False
    while not is_last:
        piece = read(PIECE)
        held, is_last = held + piece, not piece
        for window in listed(lister, held, is_last, tally):
            yield window
            tally, rest = window.tally, window.used
            if window.stopped:
                return
        held = held[rest:]


def listed(lister: Lister, held: bytes, is_last: bool, tally: Tally) -> Iterator[Window]:
    """As many windows of the same bytes as the output's room takes; the last has no lines that have not been given."""
    used, base = 0, tally.place
    while True:
        found = lister.list_window(held[used:] if used else held, is_last, tally)
        used, tally = used + found.used, found.tally
        yield Window(found.text.decode("ascii"), held, base, used, tally, found.stopped)
        if not found.used or found.stopped or used == len(held):
            return


def record_of(line: str, window: Window) -> Record:
    """A line's record, of any kind but a refusal's."""
    words = line.split(" ")
    first = int(words[0]) - window.base
    start = first + RECORD_HEADER + (0 if words[1] == "old-note" else CONTAINER_HEADER)
    raw = window.data[first:start + int(words[-1])]
    payload = raw[start - first:]
    if words[1] == "old-note":
        return Record(int(words[0]), "", "note", "", 0, payload, raw)
    place, way, kind, word, number, _ = words
    return Record(int(place), way, kind, word, int(number), payload, raw)


def refusal_of(line: str) -> Refused:
    place, _, number, *at = line.split(" ")
    return Refused(int(place), int(number), int(at[0]) if at else None)
