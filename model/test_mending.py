"""The laws of mending that crates/mending proves of the definition, run on the model: every case of the comparison and more at random."""

import pathlib
import random
import unittest

from compare.cases_mending import broken_recordings, random_recording, sound
from model import mending
from model.listing import listing
from model.recording import read_record

EXAMPLES = pathlib.Path(__file__).resolve().parent.parent / "examples"
RANDOM = 1000


def recordings():
    yield from broken_recordings()
    yield from (path.read_bytes() for path in sorted(EXAMPLES.glob("*.recording")))
    rng = random.Random("mending")
    yield from (random_recording(rng) for _ in range(RANDOM))


def is_sound(data):
    return " refusal " not in listing(data)


def rows(data):
    """The kinds and bodies of a recording that is accepted from end to end."""
    at, found = 0, []
    while at < len(data):
        record = read_record(data, at)
        found.append((record.kind, data[record.start:record.after]))
        at = record.after
    return found


class Laws(unittest.TestCase):
    def test_laws(self):
        for data in recordings():
            made = mending.mend(data)
            with self.subTest(data[:60].hex()):
                self.tiles(data, made)
                self.accepted(data, made)
                self.joined(made)
                self.nothing_missed(data, made)

    def tiles(self, data, made):
        """The two lists, merged by start, are the recording from end to end; so their lengths make its length."""
        at = 0
        for start, length in sorted(made.kept + made.dropped):
            self.assertEqual(start, at)
            at += length
        self.assertEqual(at, len(data))
        self.assertEqual(sum(length for _, length in made.kept + made.dropped), len(data))

    def accepted(self, data, made):
        """What comes out is a recording of the kept records in order, and is mended to itself."""
        kept = [read_record(data, start) for start, _ in made.kept]
        self.assertEqual(rows(made.data), [(record.kind, data[record.start:record.after]) for record in kept])
        again = mending.mend(made.data)
        self.assertEqual((again.data, again.dropped), (made.data, []))

    def joined(self, made):
        for start, length in made.dropped:
            self.assertGreater(length, 0)
        for stretch, following in zip(made.dropped, made.dropped[1:]):
            self.assertLess(sum(stretch), following.start)

    def nothing_missed(self, data, made):
        for start, length in made.dropped:
            for at in {start, start + length - 1, *range(start, start + min(length, 200))}:
                self.assertIsNone(mending.after_record(data, at))

    def test_sound_recordings_are_unchanged(self):
        seen = 0
        for data in [*sound(), *filter(is_sound, recordings())]:
            made = mending.mend(data)
            self.assertEqual((made.data, made.dropped), (data, []))
            seen += 1
        self.assertGreater(seen, 100)


if __name__ == "__main__":
    unittest.main()
