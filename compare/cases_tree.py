"""Cases for the tree: tables, walks, folder views, paths; deleting, collecting, adding; and of tables that keep their links."""

import itertools

from compare.bits import EDGES_64, Cases, damaged, any_string, hexed, room_for
from compare.cases_values import edge_runs
from model import tree
from model.ask import MOST_ROOM, show_runs

MOST = tree.PLACES
LONGEST_NAME = 254
# What stands at and past the count, where nobody looks.
UNUSED = {"handles": 0, "parents": 0, "ends": 0, "marks": 0}


def words(table):
    lists = " ".join(show_runs(getattr(table, row)) for row in tree.LISTS)
    return f"{lists} {table.count} {hexed(table.names)}"


def table_of(parents, names, after=b"", marks=None, unused=UNUSED):
    """A table of so many objects, all live if no marks are given; its lists are filled up to 1,024 places."""
    count, ends = len(parents), list(itertools.accumulate(map(len, names)))
    rows = {"handles": list(range(1, count + 1)), "parents": list(parents), "ends": ends, "marks": list(marks or [1] * count)}
    filled = {row: used + [unused[row]] * (MOST - count) for row, used in rows.items()}
    return tree.Table(count=count, names=b"".join(names) + after, **filled)


def name(letters):
    return bytes([len(letters) + 1]) + letters.encode("utf-16-le") + b"\x00\x00" if letters else b"\x00"


def small_parents(most):
    """Every parent table of up to `most` objects that keeps the rule."""
    for count in range(1, most + 1):
        yield from itertools.product(*([range(1)] + [range(place) for place in range(1, count)]))


def small_tables():
    """Every shape of up to six objects, with names and with an empty root; every wrong parent in a small table."""
    for parents in small_parents(6):
        letters = [name(letter) for letter in "ABCDEF"[:len(parents)]]
        yield table_of(parents, letters)
        yield table_of(parents, [b"\x00"] + letters[1:])
    for parents in itertools.product(range(4), repeat=3):
        yield table_of(parents, [b"\x00"] * 3)
    for names in itertools.product([name(""), name("A"), b"\x01\x41\x00", name("A/"), name("é")], repeat=3):
        for parents in ((0, 0, 0), (0, 0, 1)):
            yield table_of(parents, names)


def marked_tables():
    """Every shape of up to five objects with every set of marks; a mark that is neither 0 nor 1; one entry past the count changed."""
    for parents in small_parents(5):
        letters = [name(letter) for letter in "ABCDE"[:len(parents)]]
        for marks in itertools.product((0, 1), repeat=len(parents)):
            yield table_of(parents, letters, marks=marks)
    letters = [name("A"), name("B"), name("C")]
    yield table_of((0, 0, 1), letters, marks=(2, 255, 128))
    for row, entry in itertools.product(tree.LISTS, (1, 2, 3, 255)):
        yield table_of((0, 0, 1), letters, b"\xee" * 7, (1, 0, 0), {**UNUSED, row: entry})


def full_tables():
    """1,024 places, none, one and many of them not live; names that fill the buffer, and some bytes less or more."""
    for ended in ((), (MOST - 1,), (1,), range(1, MOST, 2), range(1, MOST), range(MOST // 2, MOST)):
        marks = [0 if place in ended else 1 for place in range(MOST)]
        for after in (b"", b"\xee" * 4, b"\xee" * 5):
            yield table_of([0] * MOST, [name("ab")] * MOST, after, marks)
    chain = [0] + list(range(MOST - 1))
    yield table_of(chain, [b"\x00"] * MOST, marks=[1] * 512 + [0] * 512)


def broken_tables():
    """Lists of other lengths, counts out of range, ends that fall or pass the buffer, none, and each name refused in its order."""
    good = table_of((0, 0, 1), [name("A"), name("B"), name("C")])
    for field in tree.LISTS:
        row = getattr(good, field)
        yield from (good._replace(**{field: changed}) for changed in ([], row[:3], row[:-1], row + row[-1:]))
    yield tree.Table([], [], [], [], 0, b"")
    yield from (good._replace(count=count) for count in (0, 1, 2, 4, MOST, MOST + 1, 1 << 16, (1 << 64) - 1))
    for ends in itertools.product((0, 4, 5, 6, 10, 11, 15, 16, 0xFFFFFFFF), repeat=3):
        yield good._replace(ends=list(ends) + good.ends[3:])
    refused = [b"", b"\x02\x41\x00", b"\x02\x00\xd8\x00\x00", b"\x00\x00", name("A"), b"\x02\x00\xd8\x00\x00\x00"]
    for names in itertools.product(refused, repeat=3):
        yield table_of((0, 0, 1), list(names))
        yield table_of((0, 1, 1), list(names))


def edge_tables():
    """1, 1,023 and 1,024 objects: flat and in pairs; a chain only of empty names, since its paths are long."""
    yield table_of([0], [b"\x00"])
    for count in (MOST - 1, MOST):
        names = [name("ab")] * count
        yield table_of([0] * count, names)
        yield table_of([0] + [(place - 1) // 2 for place in range(1, count)], names)
        yield table_of([0] + list(range(count - 1)), [b"\x00"] * (count - 1) + [name("x")])


def longest_chain():
    """The longest need: 1,024 names of 254 units in a chain, a line of more than a million characters."""
    return table_of([0] + list(range(MOST - 1)), [bytes([255]) + b"\xac\x20" * LONGEST_NAME + b"\x00\x00"] * MOST)


def longest_paths():
    """The last place's path: 1,024 names of 762 bytes and 1,023 slashes, exactly full and one short."""
    need = MOST * (3 * LONGEST_NAME + 1) - 1
    for room in (need, need - 1):
        yield f"path {words(longest_chain())} {MOST - 1} {room}"


def random_table(rng):
    count = rng.randrange(20, 60) if rng.random() < 0.02 else rng.randrange(1, 12)
    back = rng.choice([1, 2, 3, count])
    parents = [0] + [rng.randrange(max(0, place - back), place) for place in range(1, count)]
    names = [name("") if rng.random() < 0.2 else any_string(rng) for _ in range(count)]
    after = rng.randbytes(rng.randrange(12)) if rng.random() < 0.3 else b""
    return table_of(parents, names, after, random_marks(rng, parents), {row: rng.choice([0, 1, 200]) for row in tree.LISTS})


def random_marks(rng, parents):
    """All live, or some ended with what is below them; at times a mark is wrong."""
    marks = [1] * len(parents)
    for place in range(1, len(parents)):
        if not marks[parents[place]] or rng.random() < 0.15:
            marks[place] = 0
    if rng.random() < 0.03:
        marks[rng.randrange(len(marks))] = rng.choice([0, 1, 9])
    return marks


def broken_table(rng):
    """One thing wrong: the names' bytes, a parent, an end, or a list's length."""
    table = random_table(rng)
    field = rng.choice(["names", "names", "parents", "ends", "handles", "marks", "count"])
    if field == "names":
        return table._replace(names=damaged(rng, table.names))
    if field == "count":
        return table._replace(count=rng.choice([0, table.count - 1, table.count + 1, MOST, MOST + 1, rng.choice(EDGES_64)]))
    row = list(getattr(table, field))
    if rng.random() < 0.2:
        return table._replace(**{field: row[:-1] if rng.random() < 0.5 else row + [row[-1]]})
    place = rng.randrange(table.count + 1)
    row[place] = rng.choice([0, place, max(0, row[place] - 1), row[place] + 1, 0xFFFF]) & (0xFF if field == "marks" else 0xFFFFFFFF)
    return table._replace(**{field: row})


def short_tables():
    return itertools.chain(edge_tables(), full_tables(), broken_tables(), small_tables(), marked_tables())


def one_table(rng):
    return random_table(rng) if rng.random() < 0.75 else broken_table(rng)


def run_tables():
    """A folder and an object, whose name is a run of units, whole or broken."""
    return (table_of((0, 0), [name("A"), data]) for data in edge_runs())


def short_and_run_tables():
    return itertools.chain(short_tables(), run_tables())


def on_table(ask, first, tables=short_tables):
    """A question about a table: `ask(rng, table)` makes its line; `first()` are lines that only it has."""
    return Cases(lambda rng: itertools.chain(first(), (ask(rng, table) for table in tables())),
                 lambda rng: ask(rng, one_table(rng)))


def ask_walk(rng, table):
    return f"walk {words(table)}"


def place_of(rng, table):
    if rng.random() < 0.02:
        return rng.choice(EDGES_64)
    count = min(table.count, MOST)
    return rng.choice([0, max(0, count - 1), count, rng.randrange(count + 2)])


def ask_folders(rng, table):
    return f"folders {words(table)}"


def ask_path(rng, table):
    place = place_of(rng, table)
    return f"path {words(table)} {place} {room_for(rng, lambda: tree.path(table, place))}"


def ask_paths(rng, table):
    return f"paths {words(table)} {room_for(rng, lambda: tree.paths(table, MOST_ROOM)[0])}"


def ask_folder_paths(rng, table):
    return f"folder-paths {words(table)} {room_for(rng, lambda: tree.paths(table, MOST_ROOM, tree.folder_order)[0])}"


def ask_delete(rng, table):
    return f"delete {words(table)} {place_of(rng, table)}"


def ask_collect(rng, table):
    return f"collect {words(table)}"


def ask_link(rng, table):
    return f"link {words(table)}"


def kept_links(rng, table):
    """The table's own links, or with one changed, also at a place that is not live or past the count; at times a list of another length."""
    links = tree.links(table) if tree.has_rule(table) else tree.Links([0] * MOST, [0] * MOST)
    chance = rng.random()
    if chance < 0.75:
        return links
    field = rng.choice(tree.Links._fields)
    row = list(getattr(links, field))
    if chance < 0.8:
        return links._replace(**{field: rng.choice([row[:-1], row + [0], []])})
    place = rng.choice([rng.randrange(min(table.count, MOST) + 1), rng.randrange(MOST), MOST - 1]) % MOST
    row[place] = rng.choice([0, 1, place, (row[place] + 1) & 0xFFFF, 0xFFFF])
    return links._replace(**{field: row})


def linked(ask):
    """A question about a table, asked of one that keeps its links: they follow the table's words."""
    def asked(rng, table):
        question, *parts = ask(rng, table).split(" ")
        count = len(tree.Table._fields)
        return " ".join([f"linked-{question}", *parts[:count], *map(show_runs, kept_links(rng, table)), *parts[count:]])
    return asked


def new_name(rng, table):
    """Of any length; often just as long as what is left of the names' bytes, with collecting or without; at times broken."""
    chance = rng.random()
    if chance < 0.1:
        return damaged(rng, any_string(rng))
    if chance < 0.5 or not tree.has_rule(table):
        return any_string(rng)
    left = len(table.names) - rng.choice([table.ends[table.count - 1], sum(map(len, tree.live_names(table)))])
    units = max(0, min(254, (left + rng.choice([-2, 0, 2]) - 3) // 2))
    return name("x" * units)


def ask_add(rng, table):
    return f"add {words(table)} {place_of(rng, table)} {rng.getrandbits(32)} {hexed(new_name(rng, table))}"


TREE_CASES = {
    "walk": on_table(ask_walk, lambda: [f"walk {words(longest_chain())}"], short_and_run_tables),
    "path": on_table(ask_path, longest_paths),
    "paths": on_table(ask_paths, lambda: [f"paths {words(longest_chain())} {MOST_ROOM}"]),
    "delete": on_table(ask_delete, lambda: []),
    "collect": on_table(ask_collect, lambda: [f"collect {words(longest_chain())}"]),
    "add": on_table(ask_add, lambda: []),
    "folders": on_table(ask_folders, lambda: [f"folders {words(longest_chain())}"]),
    "folder-paths": on_table(ask_folder_paths, lambda: []),
    "link": on_table(ask_link, lambda: []),
    "linked-walk": on_table(linked(ask_walk), lambda: []),
    "linked-paths": on_table(linked(ask_paths), lambda: []),
    "linked-delete": on_table(linked(ask_delete), lambda: []),
    "linked-collect": on_table(linked(ask_collect), lambda: []),
    "linked-add": on_table(linked(ask_add), lambda: []),
}
