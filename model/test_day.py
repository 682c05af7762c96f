"""The days of examples/ hold what they say: each Data payload is a dataset, whole, read by the question that it answers."""

import pathlib
import unittest

from model import recording
from model.ask import answer
from model.containers import DATA, read_container

EXAMPLES = pathlib.Path(__file__).resolve().parent.parent / "examples"

# The question that reads what a command's Data payload carries, and what its answer must begin with.
DAY = {
    0x1001: ("device-info", "ok 100 6 100 "),
    0x1004: ("storage-ids", "ok 65537"),
    0x1005: ("storage-info", "ok 4 3 0 64000000000 "),
    0x1007: ("handles", "ok 1,2,3"),
    0x1008: ("object-info", "ok 65537 "),
    0x1014: ("property crate", "ok {length} "),
}
# The second maker's camera keeps to the book.
BOOK = {
    0x1001: ("device-info", "ok 100 0 0 "),
    0x1014: ("property book", "ok {length} "),
}


def data_payloads(name):
    """Code and payload of each Data container of a day."""
    data, at = (EXAMPLES / f"{name}.recording").read_bytes(), 0
    while at < len(data):
        record = recording.read_record(data, at)
        body = data[record.start:record.start + record.length]
        at = record.after
        if record.kind != recording.NOTE:
            header, start = read_container(body)
            if header.kind == DATA:
                yield header.code, body[start:]


class Day(unittest.TestCase):
    def holds(self, name, questions):
        seen = set()
        for code, payload in data_payloads(name):
            if code in questions:
                question, start = questions[code]
                self.assertTrue(answer(f"{question} {payload.hex()}").startswith(start.format(length=len(payload))), question)
                seen.add(code)
        self.assertEqual(seen, set(questions))

    def test_payloads_are_datasets(self):
        self.holds("day", DAY)
        self.holds("book", BOOK)


if __name__ == "__main__":
    unittest.main()
