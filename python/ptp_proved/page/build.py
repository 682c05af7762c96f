"""The page as one file: its frame, style and script, and the recording's rows as data that no browser runs."""

from __future__ import annotations

import base64
import hashlib
import html
import json
import os
import re
from typing import Any, Callable, Dict, Iterator, List, Optional

from ptp_proved.day import Totals, Transaction
from ptp_proved.page.cards import Card
from ptp_proved.page.properties import Properties
from ptp_proved.page.report import Dropped
from ptp_proved.page.timeline import dropped_row, row_of
from ptp_proved.property import PropLayout
from ptp_proved.shown import entries

HERE = os.path.dirname(os.path.realpath(__file__))
# A page of so many is some 150 MB, and no browser likes more.
MOST_ENTRIES = 100_000
CAMERA = ("Manufacturer", "Model", "DeviceVersion", "SerialNumber")


class TooLong(Exception):
    """The recording has more entries than a page holds."""


def part(name: str) -> str:
    with open(os.path.join(HERE, name), encoding="utf-8") as file:
        return file.read()


def hashed(text: str) -> str:
    return "'sha256-" + base64.b64encode(hashlib.sha256(text.encode("utf-8")).digest()).decode("ascii") + "'"


def policy(style: str, script: str) -> str:
    """Nothing runs and nothing is loaded but these two."""
    return f"default-src 'none'; style-src {hashed(style)}; script-src {hashed(script)}; base-uri 'none'; form-action 'none'"


def as_data(value: Any) -> str:
    """JSON that cannot end the element that it stands in."""
    return json.dumps(value, ensure_ascii=True, separators=(",", ":")).replace("<", "\\u003c")


def camera_of(entry: Transaction) -> Optional[Dict[str, Any]]:
    """What the camera says of itself."""
    if entry.command.record.word != "GetDeviceInfo" or not entry.data or not entry.data.read.fields:
        return None
    return {one.name: one.value for one in entry.data.read.fields if one.name in CAMERA}


class Page:
    """The data of a page, entry by entry; a row is kept as the text that it becomes."""

    def __init__(self, layout: Optional[PropLayout], dropped: List[Dropped]) -> None:
        self.rows: List[str] = []
        self.properties, self.card, self.dropped = Properties(layout), Card(), dropped[::-1]
        self.camera: Optional[Dict[str, Any]] = None
        self.totals = Totals()

    def take(self, entry: Any) -> None:
        if isinstance(entry, Totals):
            self.totals = entry
            return
        if len(self.rows) >= MOST_ENTRIES:
            raise TooLong(f"the recording has more than {MOST_ENTRIES:,} entries, which is too much for a page")
        self.drop_before(entry.place)
        self.rows.append(as_data(row_of(entry)))
        self.properties.take(entry)
        self.card.take(entry)
        if isinstance(entry, Transaction):
            self.camera = camera_of(entry) or self.camera

    def drop_before(self, place: int) -> None:
        """The stretches that stood before this place of what is left."""
        while self.dropped and self.dropped[-1].mended <= place:
            self.rows.append(as_data(dropped_row(self.dropped.pop())))

    def data(self, name: str, layout: Optional[PropLayout]) -> Iterator[str]:
        self.drop_before(max([self.totals.bytes, *(one.mended for one in self.dropped)]))
        head = {"name": name, "layout": layout.value if layout else None, "camera": self.camera, "totals": self.totals.as_json(),
                "properties": self.properties.rows(), "objects": self.card.rows()}
        yield as_data(head)[:-1] + ',"rows":['
        yield ",".join(self.rows)
        yield "]}"


def page_of(read: Callable[[int], bytes], name: str, layout: Optional[PropLayout] = None, dropped: Optional[List[Dropped]] = None) -> Iterator[str]:
    """The page's text, piece by piece. `name` is what the recording is called on it."""
    page = Page(layout, dropped or [])
    for entry in entries(read, layout):
        page.take(entry)
    style, script = part("style.css"), part("script.js")
    before, behind = part("frame.html").split("{{data}}")
    words = {"{{policy}}": html.escape(policy(style, script)), "{{title}}": html.escape(name), "{{style}}": style}
    yield re.sub("|".join(words), lambda mark: words[mark[0]], before)
    yield from page.data(name, layout)
    yield behind.replace("{{script}}", script, 1)
