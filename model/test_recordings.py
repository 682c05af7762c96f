"""One reading for the whole day (request 14 of document 02): the reader beside a recogniser of the grammar, which is no reader.

The recogniser tries every way to cut the bytes, and every kind. A recording can be cut in one way at most, and both agree.
"""

import itertools
import pathlib
import random
import unittest

from compare.bits import damaged
from compare.cases_recording import copied_recordings, random_record, record, short_records
from model.recording import MOST_BODY, NOTE, RECEIVED, SENT, Record, read_recording, write_record
from model.refusals import Refused

EXAMPLES = pathlib.Path(__file__).resolve().parent.parent / "examples"
# Bytes of lengths and kinds, of a note's letter, and one that stands nowhere.
VALUES = (0, 1, 3, 6, 7)
LONGEST = 7
RANDOM = 400
MOST_TRIED = 400


def is_container(word):
    """Some kind, code, number and payload have this word."""
    return any(word == len(word).to_bytes(4, "little") + kind.to_bytes(2, "little") + word[6:8] + word[8:12] + word[12:]
               for kind in (1, 2, 3, 4) if len(word) >= 12)


def kinds_of(word):
    """Every kind of which the word is a record: its length, the kind, and a body that is one container, or for a note any bytes."""
    body = word[6:]
    if len(word) < 6 or len(body) > MOST_BODY:
        return []
    return [kind for kind in (RECEIVED, SENT, NOTE)
            if word == len(word).to_bytes(4, "little") + kind.to_bytes(2, "little") + body and (kind == NOTE or is_container(body))]


def all_cuts(data, at=0):
    """Every row of records that the bytes from this place on are."""
    if at == len(data):
        yield []
    for end in range(at + 1, len(data) + 1):
        for kind in kinds_of(data[at:end]):
            yield from ([Record(kind, at + 6, end - at - 6, end)] + rest for rest in all_cuts(data, end))


def reading(data):
    try:
        return read_recording(data)
    except Refused:
        return None


class Recordings(unittest.TestCase):
    def judge(self, data):
        cuts = list(all_cuts(data))
        self.assertLessEqual(len(cuts), 1, data)
        self.assertEqual(reading(data), cuts[0] if cuts else None, data)
        return len(cuts)

    def test_all_short_bytes(self):
        accepted = sum(self.judge(bytes(row)) for length in range(LONGEST + 1) for row in itertools.product(VALUES, repeat=length))
        # The row of no records, an empty note, and a note of one byte, which is any of the values.
        self.assertEqual(accepted, 1 + 1 + len(VALUES))

    def test_records_joined_cut_and_damaged(self):
        rng, accepted = random.Random("recordings"), 0
        for _ in range(RANDOM):
            data = b"".join(random_record(rng) for _ in range(rng.randrange(4)))
            accepted += self.judge(data) + self.judge(damaged(rng, data)) + self.judge(data + data)
        self.assertGreater(accepted, RANDOM)

    def test_records_at_their_limits(self):
        for data in itertools.chain(short_records(), copied_recordings()):
            if len(data) < MOST_TRIED:
                self.judge(data)
        for length in (MOST_BODY, MOST_BODY + 1):
            word = record(NOTE, bytes(length))
            self.assertEqual(kinds_of(word), [NOTE] if length == MOST_BODY else [])
            self.assertEqual(reading(word) is not None, length == MOST_BODY)

    def test_the_examples_are_written_back(self):
        """What is written of the records, one after the other, is the bytes that were read, where none is a note."""
        for path in sorted(EXAMPLES.glob("*.recording")):
            data = path.read_bytes()
            records = reading(data)
            if records and all(one.kind != NOTE for one in records):
                self.assertEqual(b"".join(write_record(one.kind, data[one.start:one.after]) for one in records), data, path.name)


if __name__ == "__main__":
    unittest.main()
