"""What `mend` said of a damaged recording: the stretches that it dropped, and where they stood in what is left."""

from __future__ import annotations

import re
from dataclasses import dataclass
from typing import List

STRETCH = re.compile(r"(\d+) dropped (\d+)")
CLOSING = re.compile(r"kept \d+ records \d+ bytes, dropped (\d+) stretches (\d+) bytes")


class WrongReport(Exception):
    """The text is no report of mend's."""


@dataclass(frozen=True)
class Dropped:
    """A stretch: its place in the damaged recording, its length, and the place of what follows it in the mended one."""

    place: int
    length: int
    mended: int


def read_report(text: str) -> List[Dropped]:
    """The stretches, in their order."""
    lines, gone, found = text.splitlines(), 0, []
    closing = CLOSING.fullmatch(lines[-1]) if lines else None
    if not closing:
        raise WrongReport("its last line does not count what was kept and dropped")
    for line in lines[:-1]:
        stretch = STRETCH.fullmatch(line)
        if not stretch:
            raise WrongReport(f"a line tells no stretch: {ascii(line[:40])}")
        place, length = int(stretch[1]), int(stretch[2])
        found.append(Dropped(place, length, place - gone))
        gone += length
    if [len(found), gone] != [int(closing[1]), int(closing[2])]:
        raise WrongReport("its stretches are not as many, or not as long, as its last line counts")
    return found
