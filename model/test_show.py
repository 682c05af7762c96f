"""What the model shows, by hand: the lines that the examples do not have, and the numbers of the example day."""

import pathlib
import unittest

from model import show
from model.recording import RECORD_HEADER

DAY = pathlib.Path(__file__).resolve().parent.parent / "examples" / "day.recording"


def container(kind, code, number, payload=b""):
    return b"".join(value.to_bytes(width, "little") for value, width in ((12 + len(payload), 4), (kind, 2), (code, 2), (number, 4))) + payload


def record(kind, body):
    return (RECORD_HEADER + len(body)).to_bytes(4, "little") + kind.to_bytes(2, "little") + body


class Show(unittest.TestCase):
    def lines(self, *records, layout=None):
        return show.text(b"".join(records), layout).splitlines()

    def test_units(self):
        for code, number, text in ((0x500D, 80, "80 (1/125 s)"), (0x500D, 30, "30 (0.003 s)"), (0x500D, 20_000, "20000 (2 s)"), (0x500D, 0, "0 (0 s)"),
                                   (0x5001, 50, "50 (50 %)"), (0x5007, 560, "560 (f/5.6)"), (0x5010, -333, "-333 (-0.333 EV)"),
                                   (0x5016, 15, "15 (1.5 x)"), (0x500F, 100, "100"), (0xD005, 7, "7")):
            self.assertEqual(show.measured(code)(number), text)

    def test_text_is_escaped(self):
        self.assertEqual(show.quoted('a"\\\n\x1b\x85\u202e\U000e0001é'), '"a\\"\\\\\\n\\x1b\\x85\\u202e\\U000e0001é"')

    def test_what_is_not_in_order_is_said(self):
        self.assertEqual(self.lines(record(2, container(1, 0x1003, 5)), record(1, container(3, 0x2001, 6)), record(2, container(1, 0x1003, 9))), [
            "0 CloseSession 5 unanswered", "    no Response came",
            "18 Response Ok 6", "    a Response without its Command",
            "36 CloseSession 9 unanswered", "    its number is 9, and 0 was next", "    no Response came",
            "transactions 2 unanswered 2 not-ok 0 events 0 notes 0 stray 1 records 3 bytes 54"])

    def test_an_event_waits_for_the_response(self):
        event = record(1, container(4, 0x4002, 1, bytes([7, 0, 0, 0])))
        self.assertEqual(self.lines(record(2, container(1, 0x100E, 1)), event, record(1, container(3, 0x2001, 1)))[:2],
                         ["0 InitiateCapture 1 Ok", "18 event ObjectAdded 1: ObjectHandle 0x00000007"])

    def test_no_layout_is_no_guess(self):
        lines = show.text(DAY.read_bytes()).splitlines()
        at = lines.index("449 GetDevicePropDesc 4 Ok: DevicePropCode 0x5001 BatteryLevel")
        self.assertEqual(lines[at + 1:at + 3], ["    12 bytes: 01 50 02 00 00 01 64 32 01 00 64 01",
                                                "    a description, which is not read: no --layout names its layout"])

    def test_the_fields_of_a_payload_lie_end_to_end(self):
        for one in show.entries(DAY.read_bytes(), "crate"):
            fields = (one.get("data") or {}).get("fields", [])
            places = [(field["place"], field["place"] + field["length"]) for field in fields]
            self.assertTrue(all(before[1] == after[0] for before, after in zip(places, places[1:])), one)
            self.assertTrue(not places or (places[0][0], places[-1][1] - places[0][0]) == tuple(one["data"]["payload"].values()))


if __name__ == "__main__":
    unittest.main()
