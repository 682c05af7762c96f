"""An object table: walk, folder view, paths, and objects deleted, collected and added."""

from __future__ import annotations

import ctypes
from dataclasses import dataclass
from typing import Any, Callable, List, Optional, Sequence, Tuple

from ptp_proved import archive
from ptp_proved.refusal import ROOM, Refusal
from ptp_proved.value import write_text

PLACES = 1024
GONE = 65_535
FIRST_NAMES = 1 << 12


class ObjectTable:
    """One to 1,024 objects: handles, parents' places, live marks, and names end to end with the end of each, in lists of 1,024 places. Place 0 is the
    root. What stands in the lists is the caller's: each call checks the whole table first. `Objects` makes and keeps one."""

    def __init__(self, handles: Sequence[int], parents: Sequence[int], ends: Sequence[int], marks: archive.Bytes, count: int, names: archive.Bytes) -> None:
        self.handles, self.parents, self.ends = archive.halves(handles), archive.shorts(parents), archive.halves(ends)
        self.marks, self.count, self.names = archive.lent(marks), count, archive.lent(names)
        self.new_places = (ctypes.c_uint16 * PLACES)()

    def _parts(self) -> Tuple[Any, ...]:
        return self.handles, self.parents, self.ends, self.marks, self.count, self.names

    def live_count(self) -> int:
        return sum(mark != 0 for mark in self.marks.raw[:self.count])

    def walk(self) -> List[int]:
        """The places of the live objects by depth, then by the places from the root down. Refusals: TABLE; name by name END, TEXT, TRAIL."""
        return self._places("ptp_walk")

    def folders(self) -> List[int]:
        """The same places as a folder view: each folder, then all below it, before the next one at its level. Refusals: those of the walk."""
        return self._places("ptp_folders")

    def _places(self, name: str, *links: Any) -> List[int]:
        places = (ctypes.c_uint16 * PLACES)()
        return list(places[:archive.call(name, *self._parts(), *links, places)])

    def path(self, place: int) -> str:
        """The path of one place. Refusals: those of the walk; PLACE where no live object stands."""
        room = archive.FIRST_ROOM
        while True:
            try:
                return archive.written("ptp_path", room, *self._parts(), place).decode("utf-8")
            except Refusal as refusal:
                if refusal.number != ROOM:
                    raise
                room *= 4

    def paths(self) -> List[str]:
        """All paths, in the order of the walk. Refusals: those of the walk."""
        return self._paths("ptp_paths")

    def folder_paths(self) -> List[str]:
        """All paths, in the order of the folder view. Refusals: those of the walk."""
        return self._paths("ptp_folder_paths")

    def _paths(self, name: str, *links: Any) -> List[str]:
        joined, ends = archive.grown(name, *self._parts(), *links, ends=PLACES)
        starts = [0] + ends
        return [joined[starts[k]:ends[k]].decode("utf-8") for k in range(self.live_count())]

    def delete(self, place: int) -> None:
        """Ends an object and all that stand below it. Refusals: those of the walk; PLACE for the root, and where no live object stands."""
        archive.call("ptp_table_delete", *self._parts(), place)

    def collect(self) -> List[int]:
        """Moves the live objects down in their order. For each place that was used the new one, GONE for none. Refusals: those of the walk."""
        return self._moved("ptp_table_collect", lambda count: count)

    def add(self, parent: int, handle: int, name: archive.Bytes) -> "Added":
        """Adds an object below the one at a place; `name` is the bytes of one string. It collects first where no place is left at the end, or too few
        name bytes. Refusals: those of the walk; PLACE for a parent that is not live; END, TEXT, TRAIL of the name; TAKEN; ROOM."""
        new_places = self._moved("ptp_table_add", lambda place: place + 1, parent, handle, bytes(name))
        return Added(self.count - 1, new_places)

    def _moved(self, name: str, count_after: Callable[[int], int], *words: Any, links: Tuple[Any, ...] = ()) -> List[int]:
        used = self.count
        self.count = count_after(archive.call(name, *self._parts(), *links, self.new_places, *words))
        return list(self.new_places[:used])

    def link(self) -> "Links":
        """The table's links. Refusals: those of the walk."""
        links = Links((0,) * PLACES, (0,) * PLACES)
        archive.call("ptp_table_link", *self._parts(), links.first, links.next)
        return links

    def linked_walk(self, links: "Links") -> List[int]:
        """As `walk`, along the links. Refusal too: TABLE where they are not the table's own."""
        return self._places("ptp_linked_walk", links.first, links.next)

    def linked_paths(self, links: "Links") -> List[str]:
        """As `paths`, along the links."""
        return self._paths("ptp_linked_paths", links.first, links.next)

    def linked_delete(self, links: "Links", place: int) -> None:
        """As `delete`; it leaves the links of the table that it leaves."""
        archive.call("ptp_linked_delete", *self._parts(), links.first, links.next, place)

    def linked_collect(self, links: "Links") -> List[int]:
        """As `collect`."""
        return self._moved("ptp_linked_collect", lambda count: count, links=(links.first, links.next))

    def linked_add(self, links: "Links", parent: int, handle: int, name: archive.Bytes) -> "Added":
        """As `add`."""
        new_places = self._moved("ptp_linked_add", lambda place: place + 1, parent, handle, bytes(name), links=(links.first, links.next))
        return Added(self.count - 1, new_places)


class Links:
    """Of each live place its first child, and the next place below the same parent; 0 is none."""

    def __init__(self, first: Sequence[int], next: Sequence[int]) -> None:
        self.first, self.next = archive.shorts(first), archive.shorts(next)


@dataclass(frozen=True)
class Added:
    """Where an added object stands, and for each place that was used before the new one: its own where nothing moved, GONE for none."""

    place: int
    new_places: List[int]

    @property
    def others_moved(self) -> bool:
        return self.place < len(self.new_places)


class Objects:
    """A table that begins with its root alone, and makes room for names as they come."""

    def __init__(self, handle: int = 0, name: str = "") -> None:
        spelled = write_text(name)
        rest = [0] * (PLACES - 1)
        names = spelled + bytes(FIRST_NAMES)
        self.table = ObjectTable([handle, *rest], [0, *rest], [len(spelled), *rest], bytes([1, *rest]), 1, names)
        self.links = Links((0,) * PLACES, (0,) * PLACES)

    def __len__(self) -> int:
        return self.table.live_count()

    def add(self, parent: int, handle: int, name: str) -> Added:
        """Refusals: PLACE for a parent that is not live; TEXT, COUNT of the name; TAKEN with 1,024 live objects."""
        spelled = write_text(name)
        while True:
            try:
                return self.table.linked_add(self.links, parent, handle, spelled)
            except Refusal as refusal:
                if refusal.number != ROOM:
                    raise
                names = self.table.names
                self.table.names = archive.lent(names.raw + bytes(len(names)))

    def delete(self, place: int) -> None:
        """Deletes the object at a place, and all that stand below it. Refusal: PLACE."""
        self.table.linked_delete(self.links, place)

    def collect(self) -> List[int]:
        return self.table.linked_collect(self.links)

    def find(self, handle: int) -> Optional[int]:
        """The place of the live object of this handle; of several, the first."""
        marks = self.table.marks.raw
        return next((place for place in range(self.table.count) if marks[place] and self.table.handles[place] == handle), None)

    def walk(self) -> List[int]:
        return self.table.linked_walk(self.links)

    def paths(self) -> List[str]:
        return self.table.linked_paths(self.links)

    def folders(self) -> List[int]:
        return self.table.folders()

    def folder_paths(self) -> List[str]:
        return self.table.folder_paths()
