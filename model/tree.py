"""The tree ("Tree" of document 01; deleted shots, links and folders, requests 8, 9 and 13 of document 02): the table's rule, the orders of walk and
folder view, paths; deleting, collecting, adding; the links of a table that keeps them.

A table is handles, parents, ends and live marks, each a list of 1,024 places, a count up to which the rules hold, and the names' bytes, end to
end. What stands at and past the count is not looked at. A mark of 0 is not live, every other is.
"""

import collections
import itertools
from collections import namedtuple

from model.refusals import PLACE, ROOM, TABLE, TAKEN, refuse_if
from model.values import expect_end, read_string, utf8

PLACES = 1024
LISTS = ("handles", "parents", "ends", "marks")
# The new place of an object that has none.
GONE = 0xFFFF

Table = namedtuple("Table", (*LISTS, "count", "names"))
# Of each place its first child, and the next below the same parent; 0 is none.
Links = namedtuple("Links", "first next")
# A table after collecting, and for each old place its new one.
Collected = namedtuple("Collected", "table new_places")
# A table after adding, the place of the object, and for each old place its new one.
Added = namedtuple("Added", "table place new_places")


def has_rule(table):
    """Lists of 1,024 places and a count of 1 to 1,024; a root at place 0, parents above, ends that rise inside; root and parents of live ones live."""
    if any(len(getattr(table, name)) != PLACES for name in LISTS) or not 1 <= table.count <= PLACES:
        return False
    parents = table.parents[:table.count]
    if parents[0] != 0 or any(parent >= place for place, parent in enumerate(parents) if place):
        return False
    spans = name_spans(table)
    if any(start > end for start, end in spans) or spans[-1][1] > len(table.names):
        return False
    return is_live(table, 0) and all(is_live(table, parents[place]) for place in live_places(table))


def name_spans(table):
    """Where each name begins and ends, of live objects and others."""
    ends = table.ends[:table.count]
    return list(zip([0] + ends[:-1], ends))


def is_live(table, place):
    return place < table.count and table.marks[place] != 0


def live_places(table):
    return [place for place in range(table.count) if is_live(table, place)]


def live_names(table):
    """The name bytes of the live objects, in their order."""
    spans = name_spans(table)
    return [table.names[slice(*spans[place])] for place in live_places(table)]


def read_names(table):
    """11; then, name by name in table order, live or not, 1, 2, 3: each is wholly one PTP string."""
    refuse_if(not has_rule(table), TABLE)
    return [read_name(table.names[start:end]) for start, end in name_spans(table)]


def read_name(data):
    name, after = read_string(data, 0)
    expect_end(data, after)
    return utf8(name)


def ways(table):
    """For each place, the places from the root down to it."""
    found = [[0]]
    for place in range(1, table.count):
        found.append(found[table.parents[place]] + [place])
    return found


def links(table):
    """Of a live place the lowest live child, and the next higher live place with the same parent. All else is 0."""
    below = collections.defaultdict(list)
    for place in live_places(table)[1:]:
        below[table.parents[place]].append(place)
    first, following = [0] * PLACES, [0] * PLACES
    for parent, children in below.items():
        first[parent] = children[0]
        for child, sibling in zip(children, children[1:]):
            following[child] = sibling
    return Links(first, following)


def link(table):
    read_names(table)
    return links(table)


def check_links(table, kept):
    """A table that keeps its links: links that are not its own are one more cause of 11, before the names."""
    refuse_if(not has_rule(table) or kept != links(table), TABLE)
    read_names(table)


def walk(table):
    read_names(table)
    return walk_order(table)


def walk_order(table):
    """"By depth, then by the places from the root down, compared left to right", of the live objects."""
    way = ways(table)
    return sorted(live_places(table), key=lambda place: (len(way[place]), way[place]))


def folders(table):
    read_names(table)
    return folder_order(table)


def folder_order(table):
    """"In the order of the places from the root down compared left to right, a folder before what it holds", of the live objects."""
    return sorted(live_places(table), key=ways(table).__getitem__)


def _path_of(names, way):
    """The root's path is its name; elsewhere the parent's, a slash only if that is not empty, then the name."""
    pieces, length = [], 0
    for place in way:
        piece = (b"/" if length else b"") + names[place]
        pieces.append(piece)
        length += len(piece)
    return b"".join(pieces)


def path(table, place):
    """The table's refusals, then 12 for a place that is not live."""
    names = read_names(table)
    refuse_if(not is_live(table, place), PLACE)
    return _path_of(names, ways(table)[place])


def _path_lengths(table, names):
    lengths = [len(names[0])]
    for place in range(1, table.count):
        above = lengths[table.parents[place]]
        lengths.append(above + (1 if above else 0) + len(names[place]))
    return lengths


def paths(table, room, order=walk_order):
    """All paths of live objects in this order, end to end, and where each ends. The need is known before a path is made."""
    names = read_names(table)
    lengths = _path_lengths(table, names)
    refuse_if(sum(lengths[place] for place in live_places(table)) > room, ROOM)
    way, joined, ends, length = ways(table), [], [], 0
    for place in order(table):
        joined.append(_path_of(names, way[place]))
        length += len(joined[-1])
        ends.append(length)
    return b"".join(joined), ends


def delete(table, place):
    """The marks after it: the place has ended, and everything below it. The table's refusals; 12 for the root and for a place that is not live."""
    read_names(table)
    refuse_if(place == 0 or not is_live(table, place), PLACE)
    ended = [below for below, way in enumerate(ways(table)) if place in way]
    return [0 if at in ended else mark for at, mark in enumerate(table.marks)]


def _laid_over(kept, old):
    """What is kept, and behind it what stood there before."""
    return kept + old[len(kept):]


def collect(table):
    """The live objects moved down in their order."""
    read_names(table)
    return _collected(table)


def _collected(table):
    live = live_places(table)
    new = {place: at for at, place in enumerate(live)}
    names = live_names(table)
    kept = {
        "handles": [table.handles[place] for place in live],
        "parents": [new[table.parents[place]] for place in live],
        "ends": list(itertools.accumulate(map(len, names))),
        "marks": [1] * len(live),
        "names": b"".join(names),
    }
    lists = {name: _laid_over(row, getattr(table, name)) for name, row in kept.items()}
    return Collected(Table(count=len(live), **lists), [new.get(place, GONE) for place in range(table.count)])


def add(table, parent, handle, name):
    """An object below the parent. The table's refusals; 12 for a parent that is not live; the name's 1, 2, 3; 19 with 1,024 live objects; 9 for
    name bytes that collecting would not free."""
    read_names(table)
    refuse_if(not is_live(table, parent), PLACE)
    read_name(name)
    names = live_names(table)
    refuse_if(len(names) == PLACES, TAKEN)
    refuse_if(len(table.names) - sum(map(len, names)) < len(name), ROOM)
    if table.count == PLACES or len(table.names) - table.ends[table.count - 1] < len(name):
        return _with(*_collected(table), parent, handle, name)
    return _with(table, list(range(table.count)), parent, handle, name)


def _with(table, new_places, parent, handle, name):
    """The object at the end, the parent's place carried to its new one."""
    place, start = table.count, table.ends[table.count - 1]
    entries = {"handles": handle, "parents": new_places[parent], "ends": start + len(name), "marks": 1}
    lists = {row: getattr(table, row)[:place] + [entry] + getattr(table, row)[place + 1:] for row, entry in entries.items()}
    names = table.names[:start] + name + table.names[start + len(name):]
    return Added(Table(count=place + 1, names=names, **lists), place, new_places)
