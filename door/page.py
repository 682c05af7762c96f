"""page [--layout crate|book] [--report FILE] RECORDING OUT.html: a recording as one file for a browser"""

import os

from door import inputs, output, package, show, signals
from door.failure import Failure, Misuse, failed, named
from door.progress import Progress

MOST_REPORT = 1 << 26


def two_files(words):
    for word in words:
        if len(word) > 1 and word.startswith("-"):
            raise Misuse(f"page does not take {named(word)}")
    if len(words) != 2:
        raise Misuse("page takes two files, RECORDING and OUT.html")
    return words


def report_of(path, pages):
    """The stretches that mend dropped, as it told them."""
    if path is None:
        return []
    data = inputs.read_at_most(inputs.opened(path), MOST_REPORT)
    try:
        return pages.read_report(data.decode("ascii", "replace"))
    except pages.WrongReport as error:
        raise Failure(f"{named(path)} is no report of mend's: {error}") from None


def write(out, text):
    """All of it, to a file of any kind."""
    data = memoryview(text.encode("utf-8"))
    try:
        with signals.taken():
            while data:
                data = data[os.write(out.file, data):]
    except BrokenPipeError:
        raise Failure("") from None
    except OSError as error:
        raise failed(f"{named(out.path)} cannot be written", error) from None


def made(out, pieces, too_long):
    """All pieces, and OUT in its place."""
    try:
        for piece in pieces:
            write(out, piece)
    except too_long as error:
        raise Failure(str(error)) from None
    out.settle()
    out.move()


def run(words):
    layout, words = package.taken_layout(words)
    report, words = package.taken_option(words, "--report", "a file")
    given_name, out_name = two_files(words)
    given = inputs.opened(given_name)
    output.refuse_same(given, out_name)
    layouts = package.load().PropLayout
    from ptp_proved import page as pages
    dropped, out = report_of(report, pages), output.opened(out_name)
    with out:
        progress = Progress(given, out.file)
        shown_name = os.path.basename(given_name).encode("utf-8", "backslashreplace").decode("utf-8")
        made(out, pages.page_of(show.reader(given, progress), shown_name, layouts(layout) if layout else None, dropped), pages.TooLong)
        progress.erase()
    return 0
