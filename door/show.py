"""show [--layout crate|book] [--json] [FILE]: a recording by transactions, each field decoded by a proved function"""

import os

from door import inputs, package, signals, standard
from door.failure import failed
from door.progress import Progress


def reader(file, progress):
    """What reads the file, piece by piece."""
    def read(most):
        try:
            with signals.taken():
                data = os.read(file, most)
        except OSError as error:
            raise failed("the file cannot be read", error) from None
        progress.tick()
        return data
    return read


def run(words):
    layout, words = package.taken_layout(words)
    is_json = "--json" in words
    name = inputs.only_file("show", [word for word in words if word != "--json"])
    given, made = inputs.opened_or_standard(name), standard.opened(standard.OUTPUT)
    standard.refuse_same(given, made)
    layouts, progress = package.load().PropLayout, Progress(given, made)
    return shown(is_json, reader(given, progress), layouts(layout) if layout else None, progress)


def shown(is_json, read, layout, progress):
    """Status 1 where a record is refused."""
    if is_json:
        from ptp_proved.shown import json_pieces as pieces
    else:
        from ptp_proved.quick import text_pieces as pieces
    is_refused = False
    for text, refused in pieces(read, layout):
        is_refused |= refused
        if text:
            progress.erase()
            standard.write_all(standard.OUTPUT, text.encode("utf-8"))
    progress.erase()
    return 1 if is_refused else 0
