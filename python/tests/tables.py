"""The questions of object tables, answered through the package."""

import ctypes

import ptp_proved as ptp
from ptp_proved import archive

from model import ask
from tests.answers import bytes_word, filled, refusal, refused

FILLED, FILLED_END = 0xA5A5, 0xA5A5A5A5


class Asked:
    """A table of a question, its links if it keeps them, and the words that follow."""

    def __init__(self, words, keeps_links):
        handles, parents, ends, marks, count, names, *rest = words
        self.table = ptp.ObjectTable(handles, parents, ends, bytes(marks), count, names)
        self.table.new_places = (ctypes.c_uint16 * ptp.PLACES)(*[FILLED] * ptp.PLACES)
        self.links = ptp.Links(rest[0], rest[1]) if keeps_links else None
        self.rest = rest[2:] if keeps_links else rest

    def linked(self, name):
        """The method of that name, along the links where there are some."""
        if self.links is None:
            return getattr(self.table, name)
        return lambda *words: getattr(self.table, f"linked_{name}")(self.links, *words)

    def parts(self):
        links = () if self.links is None else (self.links.first, self.links.next)
        return (*self.table._parts(), *links)

    def changed(self):
        table = self.table
        lists = [ask.show_runs(row) for row in (table.handles, table.parents, table.ends, table.marks.raw)]
        return " ".join([*lists, bytes_word(table.names.raw), ask.show_runs(table.new_places)])

    def with_links(self, line):
        return line if self.links is None else f"{line} {ask.show_runs(self.links.first)} {ask.show_runs(self.links.next)}"


def places(method, keeps_links=False):
    def answer(*words):
        asked = Asked(words, keeps_links)
        return f"ok {ask.show_list(asked.linked(method)())}"
    return answer


def path(*words):
    asked = Asked(words, False)
    place, room = asked.rest
    out = filled(room)
    try:
        count = archive.call("ptp_path", *asked.table._parts(), place, out)
    except ptp.Refusal as why:
        return f"{refusal(why)} {bytes_word(out.raw)}"
    assert asked.table.path(place).encode() == out.raw[:count]
    return f"ok {count} {bytes_word(out.raw)}"


def paths(name, method, keeps_links=False):
    def answer(*words):
        asked = Asked(words, keeps_links)
        out, ends = filled(asked.rest[0]), (ctypes.c_uint32 * ptp.PLACES)(*[FILLED_END] * ptp.PLACES)
        try:
            count = archive.call(name, *asked.parts(), out, ends)
        except ptp.Refusal as why:
            if why.number != archive.ROOM:
                assert refused(asked.linked(method)) == why
            return f"{refusal(why)} {bytes_word(out.raw)}"
        assert "".join(asked.linked(method)()).encode() == out.raw[:count]
        return f"ok {count} {bytes_word(out.raw)} {ask.show_runs(ends)}"
    return answer


def delete(keeps_links=False):
    def answer(*words):
        asked = Asked(words, keeps_links)
        why = refused(lambda: asked.linked("delete")(*asked.rest))
        return asked.with_links(f"{refusal(why) if why else 'ok'} {ask.show_runs(asked.table.marks.raw)}")
    return answer


def collect(keeps_links=False):
    def answer(*words):
        asked = Asked(words, keeps_links)
        why = refused(asked.linked("collect"))
        return asked.with_links(f"{refusal(why) if why else f'ok {asked.table.count}'} {asked.changed()}")
    return answer


def add(keeps_links=False):
    def answer(*words):
        asked = Asked(words, keeps_links)
        try:
            made = asked.linked("add")(*asked.rest)
            assert made.others_moved == (made.new_places != list(range(len(made.new_places))))
            word = f"ok {made.place}"
        except ptp.Refusal as why:
            word = refusal(why)
        return asked.with_links(f"{word} {asked.changed()}")
    return answer


def link(*words):
    asked = Asked(words, False)
    first, after = ((ctypes.c_uint16 * ptp.PLACES)(*[FILLED] * ptp.PLACES) for _ in range(2))
    try:
        archive.call("ptp_table_link", *asked.table._parts(), first, after)
        made = asked.table.link()
        assert (list(made.first), list(made.next)) == (list(first), list(after))
        word = "ok"
    except ptp.Refusal as why:
        word = refusal(why)
    return f"{word} {ask.show_runs(first)} {ask.show_runs(after)}"


TABLES = {
    "walk": places("walk"), "path": path, "paths": paths("ptp_paths", "paths"), "folders": places("folders"),
    "folder-paths": paths("ptp_folder_paths", "folder_paths"), "delete": delete(), "collect": collect(), "add": add(), "link": link,
    "linked-walk": places("walk", True), "linked-paths": paths("ptp_linked_paths", "paths", True), "linked-delete": delete(True),
    "linked-collect": collect(True), "linked-add": add(True),
}
