"""An older tool, whose limit was 8,192 bytes, and today's: what the older listed to its end, or stopped at with another refusal than 14, is the same."""

import pathlib
import random
import unittest

from compare.bits import maybe_damaged
from compare.cases_recording import random_record, record
from model.listing import listing
from model.recording import MOST_BODY, read_record
from model.refusals import LONG, Refused

EXAMPLES = pathlib.Path(__file__).resolve().parent.parent / "examples"
OLDER_MOST = 8192
RANDOM = 1000


def recordings():
    yield from (path.read_bytes() for path in sorted(EXAMPLES.glob("*.recording")))
    rng = random.Random("limits")
    for _ in range(RANDOM):
        data = b"".join(random_record(rng) for _ in range(rng.randrange(6)))
        longer = record(3, bytes(rng.choice([OLDER_MOST, OLDER_MOST + 1, MOST_BODY, MOST_BODY + 1]))) if rng.random() < 0.3 else b""
        yield maybe_damaged(rng, data) + longer + random_record(rng)


def refusal(listed):
    """The refusal's line, whole, or None where the recording was listed to its end."""
    line = listed.splitlines()[-2]
    return line if " refusal " in line else None


def stops_at(listed):
    return int(refusal(listed).split(" ")[0])


class Limits(unittest.TestCase):
    def test_listings(self):
        seen = {"same": 0, "longer": 0}
        for data in recordings():
            older, newer = listing(data, OLDER_MOST), listing(data)
            if refusal(older) is None or not refusal(older).endswith(f" refusal {LONG}"):
                self.assertEqual(older, newer)
                seen["same"] += 1
            else:
                self.assert_longer(data, older, newer)
                seen["longer"] += 1
        self.assertTrue(all(seen.values()), seen)

    def assert_longer(self, data, older, newer):
        """The older tool stops with 14 exactly at a body over its limit, by six bytes alone, and lists nothing of it."""
        at = stops_at(older)
        length, kind = int.from_bytes(data[at:at + 4], "little"), int.from_bytes(data[at + 4:at + 6], "little")
        self.assertTrue(length - 6 > OLDER_MOST and 1 <= kind <= 3)
        self.assertTrue(newer.startswith(older[:older.index(f"{at} refusal {LONG}")]))
        with self.assertRaises(Refused) as refused:
            read_record(data[at:at + 6] + b"anything", 0, OLDER_MOST)
        self.assertEqual(refused.exception.number, LONG)


if __name__ == "__main__":
    unittest.main()
