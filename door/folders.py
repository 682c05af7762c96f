"""folders [FILE]: the paths of an object table as a folder view, a line each, by the answer of the proved program `ask`"""

import re

from door import inputs, standard
from door.asking import Asking
from door.failure import Failure

# As long as a question may be, less its own words.
MOST_BYTES = 1_199_900
# As much room as a question may have.
ROOM = 1 << 20
ROOM_REFUSAL = "9"
UNPRINTED = re.compile(rb"[\x00-\x1f\x7f\\]")


def read_line(file):
    """The one line of the file, with its end or without."""
    data = inputs.read_at_most(file, MOST_BYTES)
    line = data[:-1] if data.endswith(b"\n") else data
    if len(data) > MOST_BYTES or b"\n" in line or not line.isascii():
        raise Failure("the file is not one line that tells a table")
    return line.decode("ascii")


def numbers(word):
    """A list by runs."""
    for run in word.split(","):
        number, _, times = run.partition("*")
        yield from [int(number)] * int(times or 1)


def escaped(path):
    """So that a line is a path: what ends a line or is not shown, as two hexadecimal digits."""
    return UNPRINTED.sub(lambda byte: b"\\\\" if byte[0] == b"\\" else b"\\x%02x" % byte[0][0], path)


def lines_of(count, output, stops):
    """The paths, which lie end to end. What is behind the last end was not written: it is more than all bytes."""
    data, size, start = bytes.fromhex(output.strip("-")), int(count), 0
    for end in numbers(stops):
        if end > size:
            break
        yield escaped(data[start:end]) + b"\n"
        start = end


def run(words):
    file, _ = inputs.opened_or_standard(inputs.only_file("folders", words)), standard.opened(standard.OUTPUT)
    line = read_line(file)
    with Asking() as asking:
        told, *answer = asking.answer(f"folder-paths {line} {ROOM}")
    if told == "?":
        raise Failure("the file is not one line that tells a table")
    if told != "ok" and answer[0] == ROOM_REFUSAL:
        raise Failure(f"the paths have more than {ROOM:,} bytes")
    text = b"".join(lines_of(*answer)) if told == "ok" else f"refusal {' '.join(answer[:-1])}\n".encode()
    standard.write_all(standard.OUTPUT, text)
    return 0 if told == "ok" else 1
