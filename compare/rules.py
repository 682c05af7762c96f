"""Which questions are left out of the oracle's comparison, and the row of docs/DIFFERENCES.md each rule stands for.

A rule tests the question, never an answer.
"""

import re

from model import ask, datasets, names, session, tree, values
from model.containers import COMMAND, EVENT, HEADER, MOST_PARAMETERS, RESPONSE

# After this number the Rust's next has no room.
FULL = 0xFFFFFFFF
MALFORMED = "malformed"
# The Rust's walk copies every subtree: of names longer than this in all it would hold a gigabyte.
MOST_NAME_BYTES = 100_000

# What the port adds has no answer of the Rust's.
ADDED = {
    "tidy-device": "D1", "tidy-object": "D1", "tidy-storage": "D1", "tidy-property": "D1",
    "record": "D2", "recording": "D2", "write-record": "D2", "copy": "D2", "listing": "D2",
    "nth": "D3", "list": "D3", "step": "D3", "newer": "D3",
    "write-string": "D4",
    "panel": "D29",
    "settings": "D31", "settings-find": "D31", "settings-store": "D31",
    "mend": "D32",
    "delete": "D33", "collect": "D33", "add": "D33",
    "link": "D34", "linked-walk": "D34", "linked-paths": "D34", "linked-delete": "D34", "linked-collect": "D34", "linked-add": "D34",
    "folders": "D35", "folder-paths": "D35",
    "to-network": "D36", "from-network": "D36", "packet": "D36",
    "units": "D37", "numbers": "D37", "response": "D37", "needed": "D37", "settings-write": "D37", "settings-remove": "D37",
    MALFORMED: "D15",
}


# A refused reading, which has a place. A writer's output is the filling or `-`, so no place is taken for one.
PLACED = re.compile(r"(no [12]) [0-9]+")


def without_place(answer):
    """The answer as the Rust can give it: its errors have no place (D28)."""
    return PLACED.sub(r"\1", answer, count=1) if PLACED.match(answer) else answer


def words_of(line):
    """The question's words, read as docs/ASK.md says."""
    question, *words = line.split(" ")
    readers, _ = ask.QUESTIONS[question]
    return [read(word) for read, word in zip(readers, words)]


def row_for(group, line):
    """The row that leaves this question out, or None: the oracle must answer it."""
    if group in ADDED:
        return ADDED[group]
    rule = RULES.get(group)
    return rule(*words_of(line)) if rule else None


def device_property(layout, data):
    return "D30" if layout == datasets.BOOK else None


def tidy_value(code, data, room):
    return "D4" if code == values.STRING else None


def item(code, index, at, data):
    return "D12" if values.item_code(code) is None else None


def write_array(code, items, room):
    item = values.item_code(code)
    return "D12" if item is None or len(items) % values.WIDTHS[item] else None


def end(at, data):
    return "D13" if at > len(data) else None


def number_at(data, at, width):
    return int.from_bytes(data[at:at + width], "little")


def is_container(data, at):
    """A whole header with a kind: then the Rust looks at the announced length."""
    return len(data) - at >= HEADER and COMMAND <= number_at(data, at + 4, 2) <= EVENT


def header(data, at=0):
    return "D5" if is_container(data, at) and number_at(data, at, 4) < HEADER else None


def container(data, at=0):
    if is_container(data, at) and number_at(data, at, 4) > len(data) - at:
        return "D6"
    return header(data, at)


def answer(number, data):
    """Container by container, up to the one at which the search stops."""
    if number == FULL:
        return "D8"
    at = 0
    while True:
        if at == len(data):
            return "D7"
        if container(data, at) or not is_container(data, at):
            return container(data, at)
        if number_at(data, at + 8, 4) != number or number_at(data, at + 4, 2) == RESPONSE:
            return None
        at += number_at(data, at, 4)


def write_container(kind, *words):
    return None if COMMAND <= kind <= EVENT else "D14"


def numbers(state, code):
    """The Rust sends every command with the state, and counts one up, as ours does with OpenSession in a closed session, and in an open one with
    any but these two and the last numbers."""
    if code == session.OPEN_SESSION:
        return None if state == 0 else "D8"
    return "D8" if code == session.CLOSE_SESSION or not 0 < state < session.LAST_NUMBER else None


def command(state, code, parameters, *words):
    return "D9" if len(parameters) > MOST_PARAMETERS else numbers(state, code)


def call(name, state, *words):
    return numbers(state, names.command_code(name))


def on_tree(*words):
    table = tree.Table(*words[:len(tree.Table._fields)])
    if any(len(getattr(table, row)) != tree.PLACES for row in tree.LISTS):
        return "D10"
    if len(table.names) > MOST_NAME_BYTES:
        return "D16"
    return None if tree.has_rule(table) else "D11"


RULES = {
    "property": device_property,
    "tidy-value": tidy_value, "item": item, "write-array": write_array, "end": end,
    "header": header, "container": container, "write-container": write_container,
    "command": command, "command-data": command, "call": call, "answer": answer,
    "walk": on_tree, "path": on_tree, "paths": on_tree,
}
