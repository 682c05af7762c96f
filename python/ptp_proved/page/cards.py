"""Objects as the page tells of them: a folder view in the proved order, with what the camera said of each, and where."""

from __future__ import annotations

from typing import Any, Dict, Iterator, List, Optional

from ptp_proved.day import Event, Transaction
from ptp_proved.objects import PLACES, Objects

ALL_OBJECTS = 0xFFFFFFFF
SHOWN = ("ObjectFormat", "ObjectCompressedSize", "CaptureDate", "ModificationDate", "ProtectionStatus", "ImagePixWidth", "ImagePixHeight", "Keywords",
         "StorageID")
MOST_TIMES = 100


class Thing:
    """An object that was described."""

    def __init__(self, handle: int) -> None:
        self.handle, self.parent, self.name = handle, 0, ""
        self.texts: Dict[str, str] = {}
        self.places: List[int] = []
        self.deleted: Optional[int] = None

    def describe(self, entry: Transaction) -> None:
        assert entry.data
        fields = {one.name: one for one in entry.data.read.fields}
        parent, name = fields["ParentObject"].value, fields["Filename"].value
        assert isinstance(parent, int) and isinstance(name, str)
        self.parent, self.name = parent, name
        self.texts = {name: fields[name].text for name in SHOWN}
        if len(self.places) < MOST_TIMES:
            self.places.append(entry.place)

    def as_row(self, depth: int) -> Dict[str, Any]:
        return {"h": f"0x{self.handle:08x}", "w": self.name, "d": depth, "t": [self.texts[name] for name in SHOWN], "p": self.places, "x": self.deleted}


class Card:
    """All objects of the day, those that were deleted too."""

    def __init__(self) -> None:
        self.things: List[Thing] = []
        self.held: Dict[int, Thing] = {}

    def take(self, entry: Any) -> None:
        if isinstance(entry, Event):
            if entry.told.record.name == "ObjectRemoved" and entry.told.parameters:
                self.delete(entry.told.parameters[0].value, entry.place)
        elif isinstance(entry, Transaction) and entry.response and entry.response.record.word == "Ok":
            self.take_transaction(entry)

    def take_transaction(self, entry: Transaction) -> None:
        word, sent = entry.command.record.word, entry.command.parameters
        if word == "GetObjectInfo" and sent and entry.data and entry.data.read.fields:
            assert isinstance(sent[0].value, int)
            self.of(sent[0].value).describe(entry)
        if word == "DeleteObject" and sent:
            self.delete(sent[0].value, entry.place)

    def of(self, handle: int) -> Thing:
        if handle not in self.held:
            self.held[handle] = Thing(handle)
            self.things.append(self.held[handle])
        return self.held[handle]

    def delete(self, handle: Any, place: int) -> None:
        """One and all below it, or all."""
        gone = list(self.held) if handle == ALL_OBJECTS else [handle]
        for one in gone:
            if one in self.held:
                self.held.pop(one).deleted = place
                gone += [below.handle for below in self.held.values() if below.parent == one]

    def rows(self) -> Dict[str, Any]:
        """The folder view, and those that have no room in it: a table holds 1,024 objects, its root among them."""
        kept, more = self.things[:PLACES - 1], self.things[PLACES - 1:]
        return {"v": list(in_folders(kept)), "m": [one.as_row(0) for one in more], "f": list(SHOWN)}


def parents_first(things: List[Thing]) -> Iterator[Thing]:
    """In their order, but each behind the folder that it lies in, where that is among them. Of folders within themselves the first is one that lies in none."""
    by_handle = {one.handle: one for one in things}
    given = set()
    for one in things:
        chain: List[Thing] = []
        while one is not None and id(one) not in given:
            given.add(id(one))
            chain.append(one)
            one = by_handle.get(one.parent)  # type: ignore[assignment]
        yield from reversed(chain)


def in_folders(things: List[Thing]) -> Iterator[Dict[str, Any]]:
    """By the order that the proved folder view has."""
    objects, places, depths = Objects(), {}, {0: -1}  # type: Objects, Dict[int, int], Dict[int, int]
    by_place: Dict[int, Thing] = {}
    for one in parents_first(things):
        parent = places.get(one.parent, 0)
        place = objects.add(parent, one.handle, one.name).place
        places[one.handle], by_place[place], depths[place] = place, one, depths[parent] + 1
    for place in objects.folders()[1:]:
        yield by_place[place].as_row(depths[place])
