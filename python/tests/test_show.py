"""What `show` says, held against the model: the examples, made recordings, damaged ones, and malformed input of every kind.

    PTP_LIBRARY=.. PYTHONPATH=python:. python3 -m unittest tests.test_show"""

import io
import json
import pathlib
import random
import unittest

from compare.cases_recording import random_recording, record
from compare.cases_session import whole
from compare.cases_show import made_day
from model import show
from ptp_proved import PropLayout
from ptp_proved.quick import text_pieces
from ptp_proved.shown import entries, json_of, text_of
from tests.schema import check

ROOT = pathlib.Path(__file__).resolve().parent.parent.parent
LAYOUTS = (None, "crate", "book")
SCHEMA = json.loads((ROOT / "docs" / "show.schema.json").read_text(encoding="utf-8"))
MADE = 2000


def layout_of(name):
    return PropLayout(name) if name else None


def pieces_of(data, size):
    """A file that gives at most so many bytes at once."""
    file = io.BytesIO(data)
    return lambda most: file.read(min(most, size))


def objects(data, layout, size=1 << 18):
    return [json.loads(json_of(entry)) for entry in entries(pieces_of(data, size), layout_of(layout))]


def text(data, layout, size=1 << 18):
    return "".join(part for part, _ in text_pieces(pieces_of(data, size), layout_of(layout)))


class AgainstTheModel(unittest.TestCase):
    maxDiff = 4000

    def same(self, data, layout, size=1 << 18):
        own = objects(data, layout, size)
        judged = json.loads(json.dumps(show.entries(data, layout)))
        self.assertEqual(len(own), len(judged))
        for one, other in zip(own, judged):
            self.assertEqual(one, other)
        self.assertEqual(text(data, layout, size), show.text(data, layout))
        return own

    def test_examples(self):
        for path in sorted((ROOT / "examples").glob("*.recording")):
            for layout in LAYOUTS:
                with self.subTest(path=path.name, layout=layout):
                    for one in self.same(path.read_bytes(), layout):
                        self.assertEqual(check(SCHEMA, one), [])

    def test_made_recordings(self):
        rng = random.Random("show")
        for count in range(MADE):
            layout = rng.choice(LAYOUTS)
            data = made_day(rng, layout or "crate") if count % 4 else random_recording(rng)
            with self.subTest(count=count):
                for one in self.same(data, layout, rng.choice([1 << 18, 1 << 18, 100, 17])):
                    self.assertEqual(check(SCHEMA, one), [])

    def test_many_days_end_to_end(self):
        """What was shown before is shown again: text that is kept is that of the slow way."""
        rng = random.Random("kept")
        days = [made_day(rng, "crate") for _ in range(12)]
        data = b"".join(rng.choice(days) for _ in range(120))
        for size in (1 << 18, 4096, 777, 100):
            self.same(data, "crate", size)
        self.same((ROOT / "examples" / "day.recording").read_bytes() * 40, "crate")

    def test_a_property_that_is_described_anew(self):
        """What was kept of a value is not shown by another type, however the new description came."""
        def transaction(code, payload, between=b""):
            parts = [record(2, whole(1, code, 1, bytes([5, 0xD0, 0, 0]))), record(1, whole(2, code, 1, payload)), between, record(1, whole(3, 0x2001, 1, b""))]
            return b"".join(parts)

        text_type = bytes([5, 0xD0, 0xFF, 0xFF, 1, 1, 0, 0, 0])
        bytes_type = bytes([5, 0xD0, 2, 0x40, 1, 1, 0, 0, 0, 0, 0, 0, 0, 0, 0])
        value = transaction(0x1016, b"\x02A\0\0\0")
        for between in (b"", record(3, b"note")):
            data = transaction(0x1014, text_type) + value * 2 + transaction(0x1014, bytes_type, between) + value * 2 + transaction(0x1014, text_type, between) + value
            self.same(data, "crate")

    def test_long_bodies_and_many_notes(self):
        body = whole(2, 0x1008, 1, bytes(65_000 - 12))
        self.same(record(2, whole(1, 0x1008, 1, bytes(4))) + record(1, body) + record(1, whole(3, 0x2001, 1, b"")), "crate")
        self.same(record(3, bytes(65_000)) + record(3, b"\xff" * 65_000), None)
        self.same(record(2, whole(1, 0x1002, 0, b"")) + record(3, b"waits") * 10_000 + record(1, whole(3, 0x2001, 0, b"")), None)

    def test_what_waits_for_a_response(self):
        event, note = record(1, whole(4, 0x4002, 1, bytes(4))), record(3, b"waits")
        for count in (1, 255, 256, 257, 600):
            for waiting in (event * count, note * count, (event + note) * (count // 2)):
                data = record(2, whole(1, 0x100E, 1, b"")) + waiting + record(1, whole(3, 0x2001, 1, b""))
                self.same(data + data, None)

    def test_names_of_every_class_of_code_points(self):
        letters = ["\0\x07\x1b\x7f", "\x85\xad\u061c", "\u200e\u202e\u2066", "\u2028\u2029", "\ue000\uf8ff", "\U000e0001\U000e0041", "\U0001F3AC\U0010ffff",
                   "é中א", "<img src=x onerror=alert(1)>", '"\\', "\ufdd0\uffff", "\ud7ff\ufeff"]
        for name in letters:
            units = name.encode("utf-16-le")
            info = bytes(52) + bytes([len(units) // 2 + 1]) + units + bytes(2) + bytes(3)
            data = record(2, whole(1, 0x1008, 1, bytes(4))) + record(1, whole(2, 0x1008, 1, info)) + record(1, whole(3, 0x2001, 1, b""))
            self.same(data + record(3, name.encode("utf-8")), "crate")
            self.assertTrue(all(line.isprintable() for line in text(data, "crate").split("\n")))


class Malformed(unittest.TestCase):
    """The example day, cut at every byte and with each byte changed: the model's fields, and no exception."""

    day = (ROOT / "examples" / "day.recording").read_bytes()

    def test_cut_at_every_byte(self):
        for length in range(len(self.day)):
            data = self.day[:length]
            self.assertEqual(text(data, "crate"), show.text(data, "crate"), length)

    def test_each_byte_changed(self):
        for place in range(len(self.day)):
            data = bytearray(self.day)
            data[place] ^= 0xFF
            self.assertEqual("".join(map(text_of, entries(pieces_of(bytes(data), 1 << 18), PropLayout.Crate))), show.text(bytes(data), "crate"), place)


if __name__ == "__main__":
    unittest.main()
